//! Groups of sorted words merged in plain Rust, with a hash table over each result: `twin PART KEYS GROUPS SHARED`.

use std::collections::{BTreeMap, HashMap};

/// Words by their keys, in order.
type Words = Vec<(Vec<u8>, Vec<u8>)>;

/// The words of one group: `.kv`, `.v`, and `.ef` with its numbers as a text.
type Group = [Words; 3];

fn key_of(number: u64) -> Vec<u8> {
    let mut key = vec![0; 20];
    key[..8].copy_from_slice(&number.to_be_bytes());
    key[8..16].copy_from_slice(&number.wrapping_mul(0x9e37_79b9_7f4a_7c15).to_be_bytes());
    key
}

/// None of a deletion.
fn value_of(tx: u64) -> Option<Vec<u8>> {
    let mut value = vec![7; 32];
    value[..8].copy_from_slice(&tx.to_be_bytes());
    (tx % 8 != 7).then_some(value)
}

/// The Elias-Fano text of ascending numbers.
fn list_text(items: &[u64]) -> Vec<u8> {
    let (n, last) = (items.len() as u64, items[items.len() - 1]);
    let width = if last <= n { 0 } else { (last / n).ilog2() as u64 };
    let lower = (n * width).div_ceil(8) as usize;
    let upper = ((last >> width) + n).div_ceil(8) as usize;
    let mut bytes = vec![0u8; 16 + lower + upper];
    bytes[..8].copy_from_slice(&n.to_be_bytes());
    bytes[8..16].copy_from_slice(&last.to_be_bytes());
    for (place, item) in items.iter().enumerate() {
        let mut at = place as u64 * width;
        let (mut low, mut left) = (item & ((1 << width) - 1), width);
        while left > 0 {
            let taken = left.min(8 - at % 8);
            bytes[16 + (at / 8) as usize] |= ((low & ((1 << taken) - 1)) << (at % 8)) as u8;
            (at, low, left) = (at + taken, low >> taken, left - taken);
        }
        let high = (item >> width) + place as u64;
        bytes[16 + lower + (high / 8) as usize] |= 1 << (high % 8);
    }
    bytes
}

fn bit(bytes: &[u8], at: u64) -> u64 {
    u64::from(bytes[(at / 8) as usize] >> (at % 8) & 1)
}

/// The numbers of a text.
fn items_of(text: &[u8], items: &mut Vec<u64>) {
    let [n, last] = [0, 8].map(|at| u64::from_be_bytes(text[at..at + 8].try_into().expect("eight bytes")));
    let width = if last <= n { 0 } else { (last / n).ilog2() as u64 };
    let upper = 16 + (n * width).div_ceil(8);
    let mut one = 0;
    for place in 0..n {
        while bit(&text[upper as usize..], one) == 0 {
            one += 1;
        }
        let low: u64 = (0..width).map(|i| bit(&text[16..], place * width + i) << i).sum();
        items.push((one - place) << width | low);
        one += 1;
    }
}

fn groups_of(keys: u64, groups: u64, shared: u64) -> Vec<Group> {
    let mut values = BTreeMap::new();
    let mut found = Vec::new();
    for step in 0..groups {
        let mut group = Group::default();
        for place in 0..keys {
            let (key, tx) = (step * (keys - shared) + place, step * keys + place);
            let (word, value) = (key_of(key), value_of(tx));
            if step > 0 || value.is_some() {
                group[0].push((word.clone(), value.clone().unwrap_or_default()));
            }
            let before = values.insert(key, value).flatten().unwrap_or_default();
            group[1].push(([&word[..], &tx.to_be_bytes()].concat(), before));
            group[2].push((word, list_text(&[tx])));
        }
        found.push(group);
    }
    found
}

fn header(kind: u8, size: u64, groups: u64) -> Vec<u8> {
    let mut bytes = b"AGW1\0\0\0\x01".to_vec();
    bytes[5] = kind;
    for number in [size, 0, groups, 0] {
        bytes.extend_from_slice(&number.to_be_bytes());
    }
    bytes
}

fn push(bytes: &mut Vec<u8>, word: &[u8]) -> u64 {
    let at = bytes.len() as u64;
    bytes.extend_from_slice(&(word.len() as u32).to_be_bytes());
    bytes.extend_from_slice(word);
    at
}

/// One kind of all groups in one text, with a table of where each key stands.
fn merged(groups: &[Group], kind: usize, size: u64) -> (Vec<u8>, HashMap<Vec<u8>, u64>) {
    let mut bytes = header(kind as u8, size, groups.len() as u64);
    let mut table = HashMap::new();
    let mut count = 0u64;
    let mut rests: Vec<&[(Vec<u8>, Vec<u8>)]> = groups.iter().map(|group| &group[kind][..]).collect();
    let mut items = Vec::new();
    while let Some(key) = rests.iter().filter_map(|rest| rest.first()).map(|word| &word.0).min() {
        let mut newest: &[u8] = &[];
        items.clear();
        for rest in rests.iter_mut() {
            let Some((word, others)) = rest.split_first() else { continue };
            if word.0 == *key {
                newest = &word.1;
                *rest = others;
                if kind == 2 {
                    items_of(newest, &mut items);
                }
            }
        }
        if kind == 0 && newest.is_empty() {
            continue;
        }
        table.insert(key.clone(), push(&mut bytes, key));
        match kind {
            2 => push(&mut bytes, &list_text(&items)),
            _ => push(&mut bytes, newest),
        };
        count += 2;
    }
    bytes[32..40].copy_from_slice(&count.to_be_bytes());
    (bytes, table)
}

fn sum_of_bytes(bytes: &[u8]) -> u64 {
    bytes.iter().fold(0u64, |sum, byte| sum.wrapping_mul(31).wrapping_add(u64::from(*byte)))
}

fn main() {
    let args: Vec<String> = std::env::args().skip(1).collect();
    let [keys, count, shared] = [1, 2, 3].map(|at| args[at].parse::<u64>().expect("a number"));
    let groups = groups_of(keys, count, shared);
    println!("{}", groups.len());
    if args[0] == "built" {
        return;
    }
    let files = [0, 1, 2].map(|kind| merged(&groups, kind, keys));
    match args[0].as_str() {
        "merged" => println!("{}", files.iter().map(|(bytes, table)| bytes.len() + 8 * table.len()).sum::<usize>()),
        _ => println!("{}", files.iter().fold(0u64, |sum, (bytes, _)| sum.wrapping_mul(31).wrapping_add(sum_of_bytes(bytes)))),
    }
}
