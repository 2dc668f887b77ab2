//! Sets of bits over words: joined, cut, shifted, walked; a sieve on them, ways in a graph, and subsets with a sum.
#[macro_use]
mod program;

use std::ops::{BitAnd, BitOr, BitXor};

#[derive(Clone, PartialEq)]
struct Bits {
    words: Vec<u64>,
}

impl Bits {
    fn new(size: usize) -> Self {
        Bits { words: vec![0; (size + 63) / 64] }
    }
    fn set(&mut self, at: usize, bit: bool) {
        let mask = 1 << (at % 64);
        if bit { self.words[at / 64] |= mask } else { self.words[at / 64] &= !mask }
    }
    fn get(&self, at: usize) -> bool {
        self.words.get(at / 64).map_or(false, |word| word >> (at % 64) & 1 == 1)
    }
    fn count(&self) -> u32 {
        self.words.iter().map(|word| word.count_ones()).sum()
    }
    fn ones(&self) -> impl Iterator<Item = usize> + '_ {
        self.words.iter().enumerate().flat_map(|(at, word)| {
            let mut left = *word;
            std::iter::from_fn(move || {
                let bit = left.trailing_zeros() as usize;
                left &= left.wrapping_sub(1);
                (bit < 64).then(|| at * 64 + bit)
            })
        })
    }
    fn shifted(&self, by: usize) -> Bits {
        let mut out = Bits { words: vec![0; self.words.len()] };
        for at in by / 64..self.words.len() {
            let low = if by % 64 > 0 && at > by / 64 { self.words[at - by / 64 - 1] >> (64 - by % 64) } else { 0 };
            out.words[at] = self.words[at - by / 64] << (by % 64) | low;
        }
        out
    }
    fn joined(&self, other: &Bits, with: fn(u64, u64) -> u64) -> Bits {
        Bits { words: self.words.iter().zip(&other.words).map(|(a, b)| with(*a, *b)).collect() }
    }
}

fn reached(graph: &[Bits], from: usize) -> Bits {
    let (mut seen, mut queue) = (Bits::new(graph.len()), vec![from]);
    while let Some(node) = queue.pop() {
        if !seen.get(node) {
            seen.set(node, true);
            queue.extend(graph[node].ones().filter(|next| !seen.get(*next)));
        }
    }
    seen
}

fn run(rounds: usize) -> u32 {
    let (mut sum, mut state) = (0u32, 1u32);
    for round in 0..rounds {
        let mut sieve = Bits::new(4000);
        (2..4000).for_each(|i| sieve.set(i, true));
        for i in (2..64).filter(|i| i % 2 == 1 || *i == 2) {
            (i * i..4000).step_by(i).for_each(|at| sieve.set(at, false));
        }
        let twins = sieve.joined(&sieve.shifted(2), BitAnd::bitand);
        sum = sum.wrapping_mul(31).wrapping_add(sieve.count() * 7 + twins.count());
        let mut sums = Bits::new(2000);
        sums.set(0, true);
        let mut graph = vec![Bits::new(80); 80];
        for i in 0..120 {
            state = state.wrapping_mul(1664525).wrapping_add(1013904223);
            graph[(state >> 8) as usize % 80].set((state >> 18) as usize % 80, true);
            if i % 4 == 0 {
                sums = sums.joined(&sums.shifted(1 + (state >> 24) as usize), BitOr::bitor);
            }
        }
        sum ^= reached(&graph, round % 80).count() + sums.joined(&sieve, BitXor::bitxor).count();
        sum = sums.ones().step_by(9).fold(sum, |sum, at| sum.rotate_left(1) ^ at as u32);
    }
    sum
}

program!(run(100));
