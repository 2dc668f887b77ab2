//! A `BTreeMap` of counts and ranges, and a `BTreeSet` of words.
#[macro_use]
mod program;

use std::collections::{BTreeMap, BTreeSet};

fn next(state: &mut u32) -> u32 {
    *state = state.wrapping_mul(1664525).wrapping_add(1013904223);
    *state >> 8
}

fn counts(rounds: u32) -> u32 {
    let mut map: BTreeMap<u32, u32> = BTreeMap::new();
    let (mut state, mut sum) = (1, 0u32);
    for round in 0..rounds {
        let key = next(&mut state) % 4096;
        *map.entry(key).or_insert(0) += round;
        if round % 3 == 0 {
            if let Some((&first, &value)) = map.range(key / 2..).next() {
                sum = sum.wrapping_mul(31).wrapping_add(first ^ value);
                map.remove(&first);
            }
        }
        if round % 256 == 0 {
            let part: u32 = map.range(100..400).map(|(key, value)| key ^ value).fold(0, u32::wrapping_add);
            sum = sum.rotate_left(5) ^ part;
        }
    }
    map.iter().fold(sum, |sum, (key, value)| sum.wrapping_mul(33) ^ key.wrapping_add(*value))
}

fn words(rounds: u32) -> u32 {
    let mut set: BTreeSet<Vec<u8>> = BTreeSet::new();
    let (mut state, mut sum) = (7, 0u32);
    for _ in 0..rounds {
        let length = 2 + next(&mut state) % 4;
        let word: Vec<u8> = (0..length).map(|_| b'a' + (next(&mut state) % 6) as u8).collect();
        if !set.insert(word.clone()) {
            sum = sum.wrapping_add(1);
        } else if set.len() > 800 {
            let last = set.iter().next_back().cloned().unwrap_or_default();
            set.remove(&last);
        }
    }
    set.iter().flatten().fold(sum, |sum, byte| sum.wrapping_mul(31).wrapping_add(u32::from(*byte)))
}

program!(counts(35_000) ^ words(5_000));
