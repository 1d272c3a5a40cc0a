//! The sorted vector that a list of rising numbers stands beside: `lists PART COUNT` copies it, or looks
//! into it at random places, and `lists opened COUNT LEAST MOST ROUNDS` seeks once in each of many, in the
//! order of `bench_parts`.

use std::hint::black_box;

const ROUNDS: u64 = 8;

fn drawn(before: u64) -> u64 {
    let first = before ^ (before << 13);
    let second = first ^ (first >> 7);
    second ^ (second << 17)
}

fn rising_by(count: u64, draw: &mut u64) -> Vec<u64> {
    let mut items = Vec::new();
    let mut item = 0u64;
    for _ in 0..count {
        *draw = drawn(*draw);
        item = item.saturating_add(*draw % 1024);
        items.push(item);
    }
    items
}

fn rising(count: u64) -> Vec<u64> {
    rising_by(count, &mut 88_172_645_463_325_252u64)
}

fn sum_of_items(items: &[u64]) -> u64 {
    let len = items.len() as u64;
    let (mut sum, mut draw) = (0u64, 1u64);
    for _ in 0..len {
        draw = drawn(draw);
        sum = sum.wrapping_add(items[(draw % len) as usize]);
    }
    sum
}

fn sum_of_finds(items: &[u64]) -> u64 {
    let last = items.last().copied().unwrap_or(0).max(1);
    let (mut sum, mut draw) = (0u64, 1u64);
    for _ in 0..items.len() {
        draw = drawn(draw);
        let at = draw % last;
        let place = items.partition_point(|item| *item < at);
        if let Some(item) = items.get(place) {
            sum = sum.wrapping_add(place as u64).wrapping_add(*item);
        }
    }
    sum
}

struct List {
    items: Box<[u64]>,
    last: u64,
}

fn lists_of(count: u64, least: u64, most: u64) -> Vec<List> {
    let mut lists = Vec::new();
    let mut draw = 1u64;
    for _ in 0..count {
        draw = drawn(draw);
        let items = rising_by(least + draw % (most - least + 1), &mut draw).into_boxed_slice();
        let last = items.last().copied().unwrap_or(0);
        lists.push(List { items, last });
    }
    lists
}

fn sum_of_opened(lists: &[List], rounds: u64) -> u64 {
    let (mut sum, mut draw) = (0u64, 1u64);
    for _ in 0..rounds {
        for list in lists {
            draw = drawn(draw);
            let at = draw % list.last.max(1);
            let place = list.items.partition_point(|item| *item < at);
            if let Some(item) = list.items.get(place) {
                sum = sum.wrapping_add(place as u64).wrapping_add(*item);
            }
        }
    }
    sum
}

fn main() {
    let mut words = std::env::args().skip(1);
    let part = words.next().expect("a part");
    let mut number = || words.next().expect("a number").parse::<u64>().expect("a number");
    let count = number();
    if part == "opened" {
        let (least, most, rounds) = (number(), number(), number());
        let lists = black_box(lists_of(count, least, most));
        println!("{}", sum_of_opened(&lists, rounds));
        return;
    }
    let items = black_box(rising(count));
    let sum = match part.as_str() {
        "lists" => 0,
        "lists_encode" => (0..ROUNDS).map(|_| black_box(items.to_vec()).len() as u64).sum(),
        "lists_get" => sum_of_items(&items),
        "lists_seek" => sum_of_finds(&items),
        _ => panic!("no such part"),
    };
    println!("{sum} {}", items.last().copied().unwrap_or(0));
}
