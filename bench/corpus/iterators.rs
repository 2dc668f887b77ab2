//! Chains of iterators: filters, maps, zips, windows, chunks, scans, flat maps and steps.
#[macro_use]
mod program;

struct Random(u32);

impl Iterator for Random {
    type Item = u32;

    fn next(&mut self) -> Option<u32> {
        self.0 ^= self.0 << 13;
        self.0 ^= self.0 >> 17;
        self.0 ^= self.0 << 5;
        Some(self.0)
    }
}

fn rising(values: &[u32]) -> usize {
    values.windows(3).filter(|three| three[0] < three[1] && three[1] < three[2]).count()
}

fn mixed(values: &[u32]) -> u32 {
    values
        .chunks(7)
        .map(|chunk| chunk.iter().copied().fold(0u32, u32::wrapping_add))
        .zip(values.iter().rev().step_by(3))
        .map(|(sum, value)| sum ^ value >> 3)
        .skip_while(|value| value % 2 == 0)
        .fold(1, |sum, value| sum.wrapping_mul(31).wrapping_add(value))
}

fn levels(values: &[u32]) -> Option<u32> {
    values
        .iter()
        .scan(0u32, |level, value| {
            *level = (*level * 3 + value % 1000) / 4;
            Some(*level)
        })
        .enumerate()
        .filter(|(place, _)| place % 5 != 0)
        .map(|(place, level)| level * 2 + place as u32 % 3)
        .max()
}

fn pairs(limit: u32) -> u32 {
    (1..limit)
        .flat_map(|a| (a..limit).map(move |b| (a, b)))
        .filter(|(a, b)| {
            let square = a * a + b * b;
            let root = (1..).take_while(|root| root * root <= square).last().unwrap_or(0);
            root * root == square
        })
        .map(|(a, b)| a * b)
        .sum()
}

fn run(rounds: u32) -> u32 {
    let mut sum = 0u32;
    for round in 0..rounds {
        let mut values: Vec<u32> = Random(round + 1).take(6000).collect();
        sum = sum.wrapping_mul(31).wrapping_add(rising(&values) as u32) ^ mixed(&values);
        values.retain(|value| value % 3 != 0);
        values.dedup_by_key(|value| *value >> 29);
        let (low, high): (Vec<u32>, Vec<u32>) = values.iter().partition(|value| **value < 1 << 31);
        sum ^= levels(&values).unwrap_or(0) + low.iter().min().copied().unwrap_or(0);
        sum = sum.rotate_left(7) ^ high.iter().position(|value| value % 1001 == 0).unwrap_or(9) as u32;
    }
    sum.wrapping_add(pairs(60))
}

program!(run(50));
