//! Pairs and numbers in maps of plain Rust, for a comparison with their files: `twin PART COUNT MORE LESS`.

use std::collections::{BTreeMap, HashMap};

type Pair = (Vec<u8>, Vec<u8>);

fn key_of(number: u64) -> Vec<u8> {
    let mut key = vec![0; 20];
    key[..8].copy_from_slice(&number.to_be_bytes());
    key[8..16].copy_from_slice(&number.wrapping_mul(0x9e37_79b9_7f4a_7c15).to_be_bytes());
    key
}

fn value_of(number: u64) -> Vec<u8> {
    let mut value = vec![7; 32];
    value[..8].copy_from_slice(&number.to_be_bytes());
    value
}

fn next_random(random: u64) -> u64 {
    random.wrapping_mul(6364136223846793005).wrapping_add(1442695040888963407)
}

/// All pairs, each once, as if drawn at random: they stand in no order.
fn shuffled(count: u64) -> Vec<Pair> {
    let mut pairs: Vec<Pair> = (0..count).map(|number| (key_of(number), value_of(number))).collect();
    let mut random = 1;
    for place in (1..pairs.len()).rev() {
        random = next_random(random);
        pairs.swap(place, (random >> 33) as usize % (place + 1));
    }
    pairs
}

/// The words of a file, without its header.
fn written(pairs: &[Pair]) -> Vec<u8> {
    let mut bytes = Vec::with_capacity(pairs.iter().map(|(key, value)| key.len() + value.len() + 8).sum());
    for word in pairs.iter().flat_map(|(key, value)| [key, value]) {
        bytes.extend_from_slice(&(word.len() as u32).to_be_bytes());
        bytes.extend_from_slice(word);
    }
    bytes
}

fn sum_of_pairs(part: &str, count: u64, looks: u64) -> u64 {
    let mut pairs = shuffled(count);
    let mut random = 1;
    let mut drawn = move || {
        random = next_random(random);
        (random >> 33) % count
    };
    match part {
        "pairs" => pairs.len() as u64,
        "built" => {
            pairs.sort_unstable();
            written(&pairs).len() as u64
        }
        "hash_map" => HashMap::<_, _>::from_iter(pairs).len() as u64,
        "got" => {
            let map: HashMap<Vec<u8>, Vec<u8>> = pairs.into_iter().collect();
            (0..looks).map(|_| u64::from(map[&key_of(drawn())[..]][7])).sum()
        }
        "tree_map" => BTreeMap::<_, _>::from_iter(pairs).len() as u64,
        _ => {
            let map: BTreeMap<Vec<u8>, Vec<u8>> = pairs.into_iter().collect();
            let place = |from: Vec<u8>| match map.range(from..).next() {
                Some((_, value)) => u64::from_be_bytes(value[..8].try_into().unwrap()),
                None => count,
            };
            (0..looks)
                .map(|_| {
                    let mut from = key_of(drawn());
                    from[19] = 1;
                    place(from)
                })
                .sum()
        }
    }
}

fn sum_of_numbers(keys: u64, count: u64, looks: u64) -> u64 {
    let lists: HashMap<Vec<u8>, Vec<u64>> =
        (0..keys).map(|key| (key_of(key), (0..count).map(|i| i * keys + key).collect())).collect();
    let end = keys * count;
    let mut random = 1;
    let mut sum = 0u64;
    for _ in 0..looks {
        random = next_random(random);
        let list = &lists[&key_of((random >> 33) % keys)[..]];
        random = next_random(random);
        let from = (random >> 33) % end;
        let place = list.partition_point(|number| *number < from);
        sum = sum.wrapping_add(list.get(place).copied().unwrap_or(end));
    }
    sum
}

fn main() {
    let args: Vec<String> = std::env::args().skip(1).collect();
    let number = |at: usize| args[at].parse::<u64>().expect("a number");
    let (count, more, less) = (number(1), number(2), number(3));
    let sum = match args[0].as_str() {
        "first" => sum_of_numbers(count, more, less),
        part => sum_of_pairs(part, count, more),
    };
    println!("{sum}");
}
