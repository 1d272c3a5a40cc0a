//! The threads that `bench_turns` has, over a `Mutex` of plain Rust: `turn THREADS TURNS ROUNDS`.

use std::env;
use std::sync::Mutex;
use std::thread;

struct Counter {
    turns: u64,
    value: u64,
}

impl Counter {
    fn work(&mut self, rounds: u64) {
        let mut value = self.value;
        for _ in 0..rounds {
            value ^= value << 13;
            value ^= value >> 7;
            value ^= value << 17;
        }
        self.value = value;
        self.turns = self.turns.wrapping_add(1);
    }
}

fn main() {
    let numbers: Vec<u64> = env::args().skip(1).map(|word| word.parse().unwrap()).collect();
    let [threads, count, rounds] = numbers[..] else { panic!("three numbers") };
    let counter = Mutex::new(Counter { turns: 0, value: 1 });
    thread::scope(|scope| {
        for _ in 0..threads {
            scope.spawn(|| {
                for _ in 0..count {
                    counter.lock().unwrap().work(rounds);
                }
            });
        }
    });
    let counter = counter.into_inner().unwrap();
    assert_eq!(counter.turns, threads * count);
    println!("{}", counter.value);
}
