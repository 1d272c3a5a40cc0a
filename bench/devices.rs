//! Files that are written, synced and renamed by plain calls, for a comparison in one run: `devices files COUNT SIZE`
//! works in the current folder and prints how many it has then.

use std::fs::{self, File};
use std::io::{self, Write};

const FOLDER: &str = "agg-data";
const TEMPORARY: &str = "agg-data/new";

fn put_file(number: u64, bytes: &[u8]) -> io::Result<()> {
    let mut file = File::create(TEMPORARY)?;
    file.write_all(bytes)?;
    file.sync_all()?;
    drop(file);
    fs::rename(TEMPORARY, format!("{FOLDER}/{number}"))?;
    File::open(FOLDER)?.sync_all()
}

fn put_files(count: u64, size: u64) -> io::Result<usize> {
    fs::create_dir(FOLDER)?;
    File::open(".")?.sync_all()?;
    let bytes: Vec<u8> = (0..size).map(|number| number as u8).collect();
    for number in 0..count {
        put_file(number, &bytes)?;
    }
    let mut names = Vec::new();
    for entry in fs::read_dir(FOLDER)? {
        let entry = entry?;
        if entry.file_type()?.is_file() {
            names.push(entry.file_name());
        }
    }
    names.sort_unstable();
    Ok(names.len())
}

fn main() -> io::Result<()> {
    let words: Vec<String> = std::env::args().collect();
    let [_, part, count, size] = words.as_slice() else {
        panic!("wants a part and two numbers");
    };
    assert_eq!(part, "files");
    let (count, size) = (count.parse().unwrap(), size.parse().unwrap());
    println!("{}", put_files(count, size)?);
    Ok(())
}
