//! Keys of a word file in a map of plain Rust, for a comparison with their hash accessor: `twin PART COUNT`.

use std::collections::HashMap;

const HEADER: usize = 40;

fn written(count: u64) -> Vec<u8> {
    let mut bytes = vec![0u8; HEADER];
    let mut key = [0u8; 20];
    for i in 0..count {
        key[..8].copy_from_slice(&i.to_be_bytes());
        bytes.extend_from_slice(&20u32.to_be_bytes());
        bytes.extend_from_slice(&key);
        bytes.extend_from_slice(&0u32.to_be_bytes());
    }
    bytes[32..HEADER].copy_from_slice(&(2 * count).to_be_bytes());
    bytes
}

/// The keys of the file with their offsets.
fn keys(bytes: &[u8]) -> impl Iterator<Item = (&[u8], u64)> {
    (HEADER..bytes.len()).step_by(28).map(|at| (&bytes[at + 4..at + 24], at as u64))
}

fn main() {
    let part = std::env::args().nth(1).expect("a part");
    let count = std::env::args().nth(2).expect("a count").parse().expect("a number");
    let bytes = written(count);
    assert!(keys(&bytes).zip(keys(&bytes).skip(1)).all(|(one, next)| one.0 < next.0));
    if part == "hashed_pairs" {
        return println!("{}", bytes.len());
    }
    let map: HashMap<Vec<u8>, u64> = keys(&bytes).map(|(key, at)| (key.to_vec(), at)).collect();
    if part == "hashed" {
        return println!("{}", map.len());
    }
    let sum = keys(&bytes).fold(0u64, |sum, (key, _)| sum.wrapping_add(map[key]));
    println!("{sum}");
}
