//! Reads over one ordered map of all changes, for a comparison with reads over files and a window:
//! `reads PART KEYS GROUPS COUNT`.

use std::collections::BTreeMap;
use std::ops::Bound::{Excluded, Included, Unbounded};

const OFTEN: u64 = 1000;
const TIMES: u64 = 10;
const PAGE: usize = 100;

/// What each change of a key left, by key and number; none of a deletion.
type Map = BTreeMap<(Vec<u8>, u64), Option<Vec<u8>>>;

/// The rows of a page, and the key of the next one.
type Page = (Vec<(Vec<u8>, Option<Vec<u8>>)>, Option<Vec<u8>>);

fn key_of(number: u64) -> Vec<u8> {
    let mut key = vec![0; 20];
    key[..8].copy_from_slice(&number.to_be_bytes());
    key[8..16].copy_from_slice(&number.wrapping_mul(0x9e37_79b9_7f4a_7c15).to_be_bytes());
    key
}

fn value_of(number: u64) -> Vec<u8> {
    let mut value = vec![7; 32];
    value[..8].copy_from_slice(&number.to_be_bytes());
    value
}

struct Random(u64);

impl Random {
    fn next(&mut self) -> u64 {
        self.0 = self.0.wrapping_mul(6364136223846793005).wrapping_add(1442695040888963407);
        self.0
    }

    fn below(&mut self, count: u64) -> u64 {
        (self.next() >> 33) % count
    }
}

/// The changes of all steps; the last step has one of each fourth key.
fn changes(keys: u64, groups: u64) -> Map {
    let mut map = Map::new();
    let mut add = |key: u64, tx: u64| {
        map.insert((key_of(key), tx), (tx % 8 != 7).then(|| value_of(tx)));
    };
    for step in 0..=groups {
        let first = step * keys;
        for key in 0..keys {
            if key % OFTEN == 0 {
                let apart = (keys / TIMES).max(1);
                (0..TIMES).for_each(|time| add(key, first + time * apart + key % apart));
            } else if (step == groups && key % 4 == 0) || (step < groups && key % groups == step) {
                add(key, first + key);
            }
        }
    }
    map
}

fn as_of(map: &Map, key: &[u8], n: u64) -> Option<Vec<u8>> {
    let (_, value) = map.range((key.to_vec(), 0)..(key.to_vec(), n)).next_back()?;
    value.clone()
}

/// The next key from a place on.
fn next_key(map: &Map, from: Vec<u8>, above: bool) -> Option<Vec<u8>> {
    let from = if above { Excluded((from, u64::MAX)) } else { Included((from, 0)) };
    let ((key, _), _) = map.range((from, Unbounded)).next()?;
    Some(key.clone())
}

/// The first rows from a key on that the row of each key tells.
fn page(map: &Map, from: Vec<u8>, row: impl Fn(&[u8]) -> Option<Option<Vec<u8>>>) -> Page {
    let mut rows = Vec::new();
    let mut next = next_key(map, from, false);
    while let Some(key) = next {
        if let Some(value) = row(&key) {
            if rows.len() == PAGE {
                return (rows, Some(key));
            }
            rows.push((key.clone(), value));
        }
        next = next_key(map, key, true);
    }
    (rows, None)
}

#[derive(Default)]
struct Found {
    sum: u64,
    rows: u64,
}

impl Found {
    fn add_number(&mut self, number: u64) {
        self.sum = self.sum.wrapping_mul(31).wrapping_add(number);
    }

    fn add_value(&mut self, value: &Option<Vec<u8>>) {
        self.add_number(value.as_ref().map_or(0, |value| u64::from_be_bytes(value[..8].try_into().unwrap()) + 1));
        self.rows += 1;
    }

    fn add_page(&mut self, (rows, more): Page) {
        rows.iter().for_each(|(_, value)| self.add_value(value));
        self.add_number(u64::from(more.is_some()));
    }

    fn add_times(&mut self, numbers: &[u64]) {
        numbers.iter().take(PAGE).for_each(|number| self.add_number(*number));
        self.rows += numbers.len().min(PAGE) as u64;
        self.add_number(numbers.get(PAGE).copied().unwrap_or(0));
    }
}

fn times(map: &Map, key: Vec<u8>, next: u64, back: bool) -> Vec<u64> {
    let numbers = map.range((key.clone(), 0)..(key, next)).map(|((_, tx), _)| *tx);
    if back { numbers.rev().take(PAGE + 1).collect() } else { numbers.take(PAGE + 1).collect() }
}

fn found_by(map: &Map, part: &str, keys: u64, next: u64, count: u64) -> Found {
    let mut found = Found::default();
    let mut random = Random(1);
    let half = next / 2;
    for _ in 0..count {
        match part {
            "latest" => found.add_value(&as_of(map, &key_of(random.below(keys)), next)),
            "asof" => {
                let key = key_of(random.below(keys));
                found.add_value(&as_of(map, &key, random.below(next)));
            }
            "range" => {
                let from = key_of(random.below(keys));
                let n = random.below(half) + half;
                found.add_page(page(map, from, |key| as_of(map, key, n).map(Some)));
            }
            "history" => {
                let from = key_of(random.below(keys));
                let a = random.below(half);
                found.add_page(page(map, from, |key| {
                    map.range((key.to_vec(), a)..(key.to_vec(), a + half)).next()?;
                    Some(as_of(map, key, a))
                }));
            }
            "index" => {
                let key = key_of(random.below(keys.div_ceil(OFTEN)) * OFTEN);
                found.add_times(&times(map, key, next, random.0 & 1 == 1));
            }
            _ => panic!("no such part"),
        }
    }
    found
}

fn main() {
    let args: Vec<String> = std::env::args().skip(1).collect();
    let number = |at: usize| args[at].parse::<u64>().expect("a number");
    let (keys, groups, count) = (number(1), number(2), number(3));
    let map = changes(keys, groups);
    let next = (groups + 1) * keys;
    let found = match args[0].as_str() {
        "built" => Found::default(),
        "each" => ["latest", "asof", "range", "history", "index"].iter().fold(Found::default(), |all, part| {
            let one = found_by(&map, part, keys, next, count);
            Found { sum: all.sum.wrapping_mul(31).wrapping_add(one.sum), rows: all.rows + one.rows }
        }),
        part => found_by(&map, part, keys, next, count),
    };
    println!("{} {}", found.sum, found.rows);
}
