//! A step of changes in plain Rust, written as the words of its three files without accessors:
//! `twin PART CHANGES KEYS GROUPS`.

use std::collections::HashMap;

struct Change {
    tx: u64,
    key: Vec<u8>,
    /// None of a deletion.
    value: Option<Vec<u8>>,
}

fn key_of(number: u64) -> Vec<u8> {
    let mut key = vec![0; 20];
    key[..8].copy_from_slice(&number.to_be_bytes());
    key[8..16].copy_from_slice(&number.wrapping_mul(0x9e37_79b9_7f4a_7c15).to_be_bytes());
    key
}

fn change_of(key: u64, tx: u64) -> Change {
    let mut value = vec![7; 32];
    value[..8].copy_from_slice(&tx.to_be_bytes());
    Change { tx, key: key_of(key), value: (tx % 8 != 7).then_some(value) }
}

/// What the keys have after the earlier steps.
fn values_below(changes: u64, keys: u64, groups: u64) -> HashMap<Vec<u8>, Vec<u8>> {
    let mut below = HashMap::new();
    for step in 0..groups {
        for key in (0..keys).filter(|key| key % groups == step) {
            let change = change_of(key, step * changes + key);
            if let Some(value) = change.value {
                below.insert(change.key, value);
            }
        }
    }
    below
}

/// The changes in the order of their numbers.
fn changes_of(changes: u64, keys: u64, groups: u64) -> Vec<Change> {
    let last = changes / keys * keys;
    (0..last).map(|place| change_of(place % keys, groups * changes + place)).collect()
}

fn header(kind: u8, size: u64, step: u64) -> Vec<u8> {
    let mut bytes = b"AGW1\0\0\0\x01".to_vec();
    bytes[5] = kind;
    for number in [size, step, step + 1, 0] {
        bytes.extend_from_slice(&number.to_be_bytes());
    }
    bytes
}

fn push(bytes: &mut Vec<u8>, count: &mut u64, parts: &[&[u8]]) {
    let length: usize = parts.iter().map(|part| part.len()).sum();
    bytes.extend_from_slice(&(length as u32).to_be_bytes());
    for part in parts {
        bytes.extend_from_slice(part);
    }
    *count += 1;
}

/// The Elias-Fano text of ascending numbers.
fn list_text(items: &[u64]) -> Vec<u8> {
    let (n, last) = (items.len() as u64, items[items.len() - 1]);
    let width = if last <= n { 0 } else { (last / n).ilog2() as u64 };
    let lower = (n * width).div_ceil(8) as usize;
    let upper = ((last >> width) + n).div_ceil(8) as usize;
    let mut bytes = vec![0u8; 16 + lower + upper];
    bytes[..8].copy_from_slice(&n.to_be_bytes());
    bytes[8..16].copy_from_slice(&last.to_be_bytes());
    for (place, item) in items.iter().enumerate() {
        let mut at = place as u64 * width;
        let (mut low, mut left) = (item & ((1 << width) - 1), width);
        while left > 0 {
            let taken = left.min(8 - at % 8);
            bytes[16 + (at / 8) as usize] |= ((low & ((1 << taken) - 1)) << (at % 8)) as u8;
            (at, low, left) = (at + taken, low >> taken, left - taken);
        }
        let high = (item >> width) + place as u64;
        bytes[16 + lower + (high / 8) as usize] |= 1 << (high % 8);
    }
    bytes
}

/// The `.kv`, `.v` and `.ef` files of the step.
fn collated(mut changes: Vec<Change>, below: &HashMap<Vec<u8>, Vec<u8>>, size: u64, step: u64) -> [Vec<u8>; 3] {
    changes.sort_by(|one, other| (&one.key, one.tx).cmp(&(&other.key, other.tx)));
    let mut files = [0, 1, 2].map(|kind| header(kind, size, step));
    let mut counts = [0; 3];
    for run in changes.chunk_by(|one, next| one.key == next.key) {
        let key = &run[0].key;
        let after = run[run.len() - 1].value.as_deref();
        if step > 0 || after.is_some() {
            push(&mut files[0], &mut counts[0], &[key]);
            push(&mut files[0], &mut counts[0], &[after.unwrap_or(&[])]);
        }
        let mut before = below.get(key).map(|value| &value[..]).unwrap_or(&[]);
        for change in run {
            push(&mut files[1], &mut counts[1], &[key, &change.tx.to_be_bytes()]);
            push(&mut files[1], &mut counts[1], &[before]);
            before = change.value.as_deref().unwrap_or(&[]);
        }
        let items: Vec<u64> = run.iter().map(|change| change.tx).collect();
        push(&mut files[2], &mut counts[2], &[key]);
        push(&mut files[2], &mut counts[2], &[&list_text(&items)]);
    }
    for (file, count) in files.iter_mut().zip(counts) {
        file[32..40].copy_from_slice(&u64::to_be_bytes(count));
    }
    files
}

/// The headers of the other entities' files, which have no words.
fn empty_files(size: u64, step: u64) -> Vec<Vec<u8>> {
    let mut files = Vec::new();
    for entity in 1..7 {
        for kind in if entity < 3 { 0..3 } else { 2..3 } {
            let mut file = header(kind, size, step);
            file[4] = entity;
            files.push(file);
        }
    }
    files
}

fn sum_of_bytes(bytes: &[u8]) -> u64 {
    bytes.iter().fold(0u64, |sum, byte| sum.wrapping_mul(31).wrapping_add(u64::from(*byte)))
}

/// A number that depends on all files in their order; an index has an empty one in place of each file of values.
fn sum_of_files(files: &[Vec<u8>], empty: &[Vec<u8>]) -> u64 {
    let mut sum = 0u64;
    for file in files.iter().chain(empty) {
        if file[4] > 2 {
            sum = sum.wrapping_mul(31).wrapping_mul(31);
        }
        sum = sum.wrapping_mul(31).wrapping_add(sum_of_bytes(file));
    }
    sum
}

fn main() {
    let args: Vec<String> = std::env::args().skip(1).collect();
    let number = |at: usize| args[at].parse::<u64>().expect("a number");
    let (count, keys, groups) = (number(1), number(2), number(3));
    let below = values_below(count, keys, groups);
    let changes = changes_of(count, keys, groups);
    if args[0] == "below" {
        // Both were made, and are let go.
        drop((below, changes));
        return println!("{}", 7 * groups);
    }
    let files = collated(changes, &below, count, groups);
    let empty = empty_files(count, groups);
    match args[0].as_str() {
        "collated" => println!("{}", files.iter().chain(&empty).map(Vec::len).sum::<usize>()),
        _ => println!("{}", sum_of_files(&files, &empty)),
    }
}
