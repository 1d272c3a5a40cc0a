//! Word files written, checked and walked, in the plain Rust that the crates replace, for a comparison
//! in one run: `words COUNT`.

const HEADER: usize = 40;

fn written(count: u64) -> Vec<u8> {
    let mut bytes = vec![0u8; HEADER];
    bytes[..4].copy_from_slice(b"AGW1");
    bytes[7] = 1;
    bytes[15] = 1;
    bytes[31] = 1;
    let mut words = 0u64;
    let mut word = [0u8; 20];
    for i in 0..count {
        word[0] = i as u8;
        word[1] = (i >> 8) as u8;
        word[2] = (i >> 16) as u8;
        bytes.extend_from_slice(&(word.len() as u32).to_be_bytes());
        bytes.extend_from_slice(&word);
        words += 1;
    }
    bytes[32..HEADER].copy_from_slice(&words.to_be_bytes());
    bytes
}

fn end_at(bytes: &[u8], at: usize) -> Option<usize> {
    let len = u32::from_be_bytes(bytes.get(at..at + 4)?.try_into().ok()?);
    let end = at + 4 + len as usize;
    (end <= bytes.len()).then_some(end)
}

/// The number of words, where the bytes are a word file.
fn checked(bytes: &[u8]) -> Option<u64> {
    if bytes.len() < HEADER || &bytes[..4] != b"AGW1" {
        return None;
    }
    let (mut at, mut words) = (HEADER, 0u64);
    while at < bytes.len() {
        at = end_at(bytes, at)?;
        words += 1;
    }
    let said = u64::from_be_bytes(bytes[32..HEADER].try_into().ok()?);
    (said == words).then_some(words)
}

fn walked(bytes: &[u8], words: u64) -> u64 {
    let (mut at, mut sum) = (HEADER, 0u64);
    for _ in 0..words {
        let end = end_at(bytes, at).expect("a word");
        let word = &bytes[at + 4..end];
        sum = sum.wrapping_add(word.get(1).copied().unwrap_or(0) as u64);
        at = end;
    }
    sum
}

fn main() {
    let count = std::env::args().nth(1).expect("a count").parse().expect("a number");
    let file = written(count);
    let bytes = file.as_slice().to_vec();
    let words = checked(&bytes).expect("a word file");
    println!("{}", walked(&bytes, words));
}
