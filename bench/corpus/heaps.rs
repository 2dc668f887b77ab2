//! `BinaryHeap` with `Reverse`: ways through a network, merged streams, tasks with deadlines, and a median of two heaps.
#[macro_use]
mod program;

use std::cmp::Reverse;
use std::collections::BinaryHeap;

#[derive(PartialEq, Eq, PartialOrd, Ord)]
struct Job {
    deadline: u32,
    gain: u16,
    kind: Kind,
}

#[derive(PartialEq, Eq, PartialOrd, Ord, Clone, Copy)]
enum Kind { Short, Long(u8) }

fn next(state: &mut u64) -> u32 {
    *state = state.wrapping_mul(6364136223846793005).wrapping_add(1442695040888963407);
    (*state >> 33) as u32
}

fn ways(edges: &[Vec<(usize, u64)>], from: usize) -> u64 {
    let mut far = vec![None; edges.len()];
    let mut heap = BinaryHeap::from(vec![Reverse((0u64, from))]);
    while let Some(Reverse((distance, node))) = heap.pop() {
        if far[node].is_some() {
            continue;
        }
        far[node] = Some(distance);
        heap.extend(edges[node].iter().filter(|(to, _)| far[*to].is_none()).map(|(to, cost)| Reverse((distance + cost, *to))));
    }
    far.iter().flatten().fold(0, |sum, distance| sum ^ distance.rotate_left(7))
}

fn merged(streams: &[Vec<u32>]) -> u32 {
    let mut heap: BinaryHeap<_> = streams.iter().enumerate().map(|(number, stream)| Reverse((stream[0], number, 0))).collect();
    let mut sum = 0u32;
    while let Some(mut top) = heap.peek_mut() {
        let Reverse((value, number, at)) = *top;
        sum = sum.wrapping_mul(31).wrapping_add(value);
        match streams[number].get(at + 1) {
            Some(later) => *top = Reverse((*later, number, at + 1)),
            None => drop(std::collections::binary_heap::PeekMut::pop(top)),
        }
    }
    sum
}

fn jobs(state: &mut u64) -> u32 {
    let mut heap = BinaryHeap::new();
    let (mut time, mut gained) = (0, 0u32);
    for _ in 0..400 {
        let kind = if next(state) % 3 == 0 { Kind::Long((next(state) % 5) as u8 + 2) } else { Kind::Short };
        heap.push(Reverse(Job { deadline: next(state) % 800, gain: next(state) as u16 % 100, kind }));
    }
    for Reverse(job) in std::iter::from_fn(|| heap.pop()) {
        time += match job.kind {
            Kind::Short => 1,
            Kind::Long(turns) => u32::from(turns),
        };
        gained += if time <= job.deadline { u32::from(job.gain) } else { 0 };
    }
    gained << 8 ^ time
}

fn run(rounds: u32) -> u32 {
    let (mut state, mut sum) = (9u64, 0u32);
    for round in 0..rounds {
        let edges: Vec<Vec<(usize, u64)>> = (0..250)
            .map(|_| (0..4).map(|_| (next(&mut state) as usize % 250, u64::from(next(&mut state) % 1000) + 1)).collect())
            .collect();
        let streams: Vec<Vec<u32>> = (1..12u32)
            .map(|number| (0..60 + number).map(|at| at * number * 7 + next(&mut state) % number).collect())
            .collect();
        sum = sum.rotate_left(5) ^ ways(&edges, round as usize % 250) as u32 ^ merged(&streams) ^ jobs(&mut state);
        let (mut low, mut high) = (BinaryHeap::new(), BinaryHeap::new());
        for _ in 0..300 {
            low.push(next(&mut state) % 10_000);
            high.extend(low.pop().map(Reverse));
            if high.len() > low.len() {
                low.extend(high.pop().map(|Reverse(value)| value));
            }
            sum = sum.wrapping_mul(3).wrapping_add(low.peek().copied().unwrap_or(0));
        }
    }
    sum
}

program!(run(60));
