//! `VecDeque`: a game of cards, ways of a knight by breadth first, a window of maxima, and Josephus' circle.
#[macro_use]
mod program;

use std::collections::VecDeque;

fn next(state: &mut u32) -> u32 {
    *state = state.wrapping_mul(1664525).wrapping_add(1013904223);
    *state >> 8
}

fn war(state: &mut u32) -> u32 {
    let mut cards: Vec<u8> = (0..52).collect();
    for at in (1..52).rev() {
        cards.swap(at, next(state) as usize % (at + 1));
    }
    let mut a: VecDeque<u8> = cards.drain(..26).collect();
    let mut b: VecDeque<u8> = cards.into();
    let (mut rounds, mut pot) = (0, Vec::new());
    while rounds < 600 {
        rounds += 1;
        let (one, two) = match (a.pop_front(), b.pop_front()) {
            (Some(one), Some(two)) => (one, two),
            (Some(_), None) => return rounds * 2,
            _ => return rounds * 2 + 1,
        };
        pot.extend([one, two]);
        match (one % 13).cmp(&(two % 13)) {
            std::cmp::Ordering::Less => b.extend(pot.drain(..).rev()),
            std::cmp::Ordering::Greater => a.extend(pot.drain(..)),
            std::cmp::Ordering::Equal => pot.extend(a.pop_front().into_iter().chain(b.pop_front())),
        }
    }
    a.iter().zip(b.iter()).fold(rounds, |sum, (one, two)| sum.wrapping_mul(31) + u32::from(one ^ two))
}

fn knight(size: i32, from: (i32, i32)) -> u32 {
    let mut far = vec![u32::MAX; (size * size) as usize];
    let mut queue = VecDeque::from([from]);
    far[(from.1 * size + from.0) as usize] = 0;
    while let Some((x, y)) = queue.pop_front() {
        let steps = far[(y * size + x) as usize];
        for (dx, dy) in [(1, 2), (2, 1), (2, -1), (1, -2), (-1, -2), (-2, -1), (-2, 1), (-1, 2)] {
            let (nx, ny) = (x + dx, y + dy);
            if (0..size).contains(&nx) && (0..size).contains(&ny) && far[(ny * size + nx) as usize] == u32::MAX {
                far[(ny * size + nx) as usize] = steps + 1;
                queue.push_back((nx, ny));
            }
        }
    }
    far.iter().fold(0, |sum, steps| sum.wrapping_mul(3).wrapping_add(*steps))
}

fn maxima(values: &[u32], width: usize) -> u32 {
    let (mut window, mut sum) = (VecDeque::<usize>::new(), 0u32);
    for (at, value) in values.iter().enumerate() {
        while window.back().map_or(false, |last| values[*last] <= *value) {
            window.pop_back();
        }
        window.push_back(at);
        if window.front().map_or(false, |first| first + width <= at) {
            window.pop_front();
        }
        sum = sum.rotate_left(1) ^ values[window[0]];
    }
    sum
}

fn circle(people: u32, step: usize) -> u32 {
    let mut ring: VecDeque<u32> = (0..people).collect();
    while ring.len() > 1 {
        let by = step % ring.len();
        ring.rotate_left(by);
        ring.pop_back();
    }
    ring[0]
}

fn run(rounds: u32) -> u32 {
    let mut state = 1;
    (0..rounds).fold(0u32, |sum, round| {
        let values: Vec<u32> = (0..1500).map(|_| next(&mut state) % 5000).collect();
        let games = (0..8).fold(0u32, |sum, _| sum.wrapping_mul(7) ^ war(&mut state));
        let last = circle(150, 7 + round as usize);
        sum.wrapping_mul(31) ^ games ^ knight(24, (round as i32 % 24, 3)) ^ maxima(&values, 20) ^ last
    })
}

program!(run(50));
