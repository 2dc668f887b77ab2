//! Arithmetic of 64 and 128 bits: products, remainders, checked and saturating sums, and powers modulo 2^61 - 1.
#[macro_use]
mod program;

const P: u64 = (1 << 61) - 1;

fn times(a: u64, b: u64) -> u64 {
    let product = u128::from(a) * u128::from(b);
    let folded = (product as u64 & P) + (product >> 61) as u64;
    if folded >= P { folded - P } else { folded }
}

fn power(mut base: u64, mut exponent: u64) -> u64 {
    let mut result = 1;
    while exponent > 0 {
        if exponent & 1 == 1 {
            result = times(result, base);
        }
        base = times(base, base);
        exponent >>= 1;
    }
    result
}

fn fibonacci(n: u32) -> u128 {
    let (mut a, mut b) = (0u128, 1u128);
    for _ in 0..n {
        (a, b) = (b, a.wrapping_add(b));
    }
    a
}

fn guarded(values: &[i64]) -> (i64, u32) {
    let (mut sum, mut overflows) = (0i64, 0);
    for value in values {
        sum = match sum.checked_mul(3).and_then(|triple| triple.checked_add(*value)) {
            Some(next) => next,
            None => {
                overflows += 1;
                sum.saturating_sub(*value) / 5
            }
        };
    }
    (sum, overflows)
}

fn digits(mut number: u128) -> u32 {
    let mut sum = 0;
    while number > 0 {
        sum = sum * 3 + (number % 10) as u32 % 7;
        number /= 10;
        sum %= 1_000_003;
    }
    sum
}

fn run(rounds: u64) -> u32 {
    let (mut state, mut sum) = (0x1234_5678_9ABC_DEF1u64, 0u32);
    let mut values = [0i64; 64];
    for round in 0..rounds {
        for value in values.iter_mut() {
            state = state.wrapping_mul(6364136223846793005).wrapping_add(1442695040888963407);
            *value = (state as i64) >> (round % 30);
        }
        let (total, overflows) = guarded(&values);
        let inverse = power(state & P | 1, P - 2);
        sum = sum.wrapping_mul(31) ^ (total as u64 >> 11) as u32 ^ overflows;
        sum ^= (times(inverse, state & P | 1) == 1) as u32 + digits(fibonacci(100 + round as u32 % 80));
        sum = sum.rotate_left((state >> 59) as u32).wrapping_add(state.count_ones() + state.leading_zeros());
    }
    sum
}

program!(run(1_800));
