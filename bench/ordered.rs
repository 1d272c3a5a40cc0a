//! Look-ups of the first key not below in Rust's ordered map, for a comparison in one run:
//! `ordered COUNT LOOKS`.

use std::collections::BTreeMap;
use std::ops::Bound;

type Key = [u8; 20];

/// Keys for so many places: those with odd numbers are in the map.
struct Keys {
    places: u64,
    gap: u64,
}

impl Keys {
    fn of(places: u64) -> Keys {
        Keys { places, gap: u64::MAX / (2 * places + 2) }
    }

    fn key(&self, number: u64) -> Key {
        let mut key = [0; 20];
        key[..8].copy_from_slice(&number.wrapping_mul(self.gap).to_be_bytes());
        key
    }

    fn at_random(&self, random: u64) -> Key {
        self.key((random >> 33) % (2 * self.places + 1))
    }
}

fn main() {
    let mut args = std::env::args().skip(1).map(|word| word.parse().expect("a number"));
    let (count, looks): (u64, u64) = (args.next().expect("a count"), args.next().expect("look-ups"));
    let keys = Keys::of(count);
    let map: BTreeMap<Vec<u8>, u64> = (0..count).map(|place| (keys.key(2 * place + 1).to_vec(), place)).collect();
    let (mut random, mut sum) = (1u64, 0u64);
    for _ in 0..looks {
        random = random.wrapping_mul(6364136223846793005).wrapping_add(1442695040888963407);
        let key = keys.at_random(random);
        let from = (Bound::Included(key.as_slice()), Bound::Unbounded);
        let place = map.range::<[u8], _>(from).next().map_or(count, |(_, place)| *place);
        sum = sum.wrapping_add(place);
    }
    println!("{sum}");
}
