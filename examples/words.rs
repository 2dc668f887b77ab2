//! Counts the letters of a sentence in a `BTreeMap`, and writes each with its count.
use std::collections::BTreeMap;

fn main() {
    let sentence = "the quick brown fox jumps over the lazy dog";
    let mut counts = BTreeMap::new();
    for letter in sentence.chars().filter(|c| c.is_ascii_alphabetic()) {
        *counts.entry(letter).or_insert(0u32) += 1;
    }
    for (letter, count) in &counts {
        println!("{letter} {count}");
    }
}
