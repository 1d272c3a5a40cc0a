//! Calls over versioned rows as a plain ordered map and filters answer them, for a comparison in one run:
//! `rows PART COUNT MORE STORES`.

use std::collections::BTreeMap;
use std::ops::Bound::{Excluded, Included, Unbounded};

const PAGE: usize = 100;
const PRUNED: usize = 1000;
const LAST: u64 = 100;

type Map = BTreeMap<(u8, Vec<u8>, u64, u64), (u64, u8, Vec<u8>)>;

fn key_of(number: u64) -> Vec<u8> {
    number.wrapping_mul(0x9e37_79b9_7f4a_7c15).to_be_bytes().to_vec()
}

fn next_random(random: u64) -> u64 {
    random.wrapping_mul(6364136223846793005).wrapping_add(1442695040888963407)
}

fn filled(count: u64) -> Map {
    (0..count).map(|tx| ((0, key_of(tx), tx, tx + 1), (0, 0, tx.to_be_bytes().to_vec()))).collect()
}

fn is_seen(epoch: u64, born: u64, killed: u64) -> bool {
    born <= epoch && (killed == 0 || epoch < killed)
}

fn steps(map: &Map, epoch: u64, count: u64, steps: u64) -> u64 {
    let size = count / steps.max(1) + 1;
    let mut sum = 0u64;
    for step in 0..steps {
        let numbers = step * size..step * size + size;
        let found: Vec<_> = map
            .iter()
            .filter(|(id, row)| is_seen(epoch, id.3, row.0) && numbers.contains(&id.2))
            .map(|(id, row)| (id.clone(), row.clone()))
            .collect();
        sum += found.iter().map(|(id, _)| id.2).sum::<u64>();
    }
    sum
}

fn sum_of_look(map: &Map, part: &str, epoch: u64, count: u64, random: u64) -> u64 {
    let key = key_of((random >> 33) % count);
    let low = (0, key.clone(), 0, 0);
    match part {
        "last" => {
            let high = (0, key, u64::MAX, 0);
            let last = map.range(low..high).rev().find(|(id, row)| is_seen(epoch, id.3, row.0));
            last.map_or(0, |(_, row)| row.2.clone()[7] as u64)
        }
        "times" => {
            let high = (0, key, u64::MAX, 0);
            let found = map.range(low..high).filter(|(id, row)| is_seen(epoch, id.3, row.0));
            found.take(PAGE).map(|(id, _)| id.2).collect::<Vec<_>>().iter().sum::<u64>()
        }
        "keys" => {
            let found = map.range((Included(low), Unbounded)).filter(|(id, row)| is_seen(epoch, id.3, row.0));
            let mut keys: Vec<Vec<u8>> = found.take(PAGE).map(|(id, _)| id.1.clone()).collect();
            keys.dedup();
            keys.iter().map(|key| key[0] as u64).sum::<u64>()
        }
        "window" => {
            let last = count.saturating_sub(LAST)..count;
            let mut keys: Vec<Vec<u8>> = last.map(key_of).filter(|other| *other >= key).collect();
            keys.sort();
            keys.iter().take(PAGE).map(|key| key[0] as u64).sum::<u64>()
        }
        "views" => {
            let high = Excluded((1, vec![], 0, 0));
            let found = map.range((Included(low), high)).filter(|(id, row)| is_seen(epoch, id.3, row.0));
            let rows: Vec<_> = found.take(PAGE).map(|(id, row)| (id.clone(), row.clone())).collect();
            rows.iter().map(|(id, _)| id.2).sum::<u64>()
        }
        "low" => map.iter().filter(|(id, row)| row.0 == 0 && id.2 < count).count() as u64,
        _ => panic!("no such part"),
    }
}

fn sum_of_prunes(map: &mut Map, count: u64, rounds: u64) -> u64 {
    let low: Vec<_> = map.keys().filter(|id| id.2 < count / 2).take(PRUNED * rounds as usize).cloned().collect();
    low.iter().filter(|id| map.remove(*id).is_some()).count() as u64
}

fn main() {
    let words: Vec<String> = std::env::args().skip(1).collect();
    let [count, more, stores] = [1, 2, 3].map(|place| words[place].parse::<u64>().expect("a number"));
    let mut maps: Vec<Map> = (0..stores).map(|_| filled(count)).collect();
    let epoch = count;
    let sum = match words[0].as_str() {
        "filled" => epoch * stores,
        "steps" => maps.iter().map(|map| steps(map, epoch, count, more)).sum::<u64>(),
        "prunes" => maps.iter_mut().map(|map| sum_of_prunes(map, count, more)).sum::<u64>(),
        part => {
            let (mut random, mut sum) = (1u64, 0u64);
            for _ in 0..more {
                let draw = next_random(random);
                random = next_random(draw);
                sum += sum_of_look(&maps[((draw >> 33) % stores) as usize], part, epoch, count, random);
            }
            sum
        }
    };
    println!("{sum}");
}
