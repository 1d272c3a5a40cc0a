//! The put, commit, open and latest lines over Rust's ordered map, for a comparison in one run.
//! It reads well-formed lines alone.

use std::collections::BTreeMap;
use std::io::{self, BufRead, Write};

type Bytes = Vec<u8>;

#[derive(Default)]
struct Rows {
    /// The value that each key was given at each number.
    values: BTreeMap<(Bytes, u64), Bytes>,
    pending: Vec<(u64, Bytes, Bytes)>,
    number: u64,
    next: u64,
    /// The next number at each opening.
    opened: Vec<u64>,
}

impl Rows {
    fn reply(&mut self, line: &str) -> String {
        let words: Vec<&str> = line.split(' ').collect();
        match words[..] {
            ["tx", number] => {
                self.number = number.parse().expect("a number");
                "ok".to_string()
            }
            ["put", "accounts", key, value] => {
                self.pending.push((self.number, bytes(key), bytes(value)));
                "ok".to_string()
            }
            ["commit"] => {
                let count = self.pending.len();
                for (number, key, value) in self.pending.drain(..) {
                    self.next = number + 1;
                    self.values.insert((key, number), value);
                }
                format!("committed {count} {}", self.next)
            }
            ["open"] => {
                self.opened.push(self.next);
                format!("opened {} {}", self.opened.len(), self.next)
            }
            ["latest", opening, "accounts", key] => self.latest(opening.parse().expect("a number"), bytes(key)),
            _ => panic!("no line that is measured: {line}"),
        }
    }

    fn latest(&self, opening: usize, key: Bytes) -> String {
        let end = (key, self.opened[opening - 1]);
        match self.values.range(..&end).next_back() {
            Some(((found, _), value)) if *found == end.0 => format!("value {}", hex(value)),
            _ => "none".to_string(),
        }
    }
}

fn bytes(text: &str) -> Bytes {
    let digit = |c: u8| (c as char).to_digit(16).expect("a digit") as u8;
    text.as_bytes().chunks(2).map(|pair| digit(pair[0]) * 16 + digit(pair[1])).collect()
}

fn hex(bytes: &[u8]) -> String {
    const DIGITS: &[u8; 16] = b"0123456789abcdef";
    let both = |b: &u8| [DIGITS[usize::from(b >> 4)] as char, DIGITS[usize::from(b & 15)] as char];
    bytes.iter().flat_map(both).collect()
}

fn main() -> io::Result<()> {
    let mut rows = Rows::default();
    // As the program does, each reply is written before the next line is read.
    let mut out = io::LineWriter::new(io::stdout());
    for line in io::stdin().lock().lines() {
        writeln!(out, "{}", rows.reply(&line?))?;
    }
    out.flush()
}
