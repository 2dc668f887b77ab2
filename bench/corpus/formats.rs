//! Texts by `format!` and `write!`: tables, hexadecimal, derived `Debug`, and numbers parsed from them.
#[macro_use]
mod program;

use std::fmt::{self, Display, Write};

#[allow(dead_code)]
#[derive(Debug, Clone, Copy)]
enum Shape {
    Point,
    Circle { radius: u32 },
    Box(i32, i32),
}

struct Money(i64);

impl Display for Money {
    fn fmt(&self, f: &mut fmt::Formatter<'_>) -> fmt::Result {
        let (sign, cents) = if self.0 < 0 { ("-", -self.0) } else { ("", self.0) };
        write!(f, "{}{}.{:02} EUR", sign, cents / 100, cents % 100)
    }
}

fn row(out: &mut String, number: u32, shape: Shape) -> fmt::Result {
    writeln!(out, "|{:>6}|{:<10}|{:^8}|{:#010x}|", number, Money(i64::from(number) * 37 - 5000), number % 97, number << 7)?;
    writeln!(out, "{:?} {:?} {:+}", shape, Some(number as u8), number as i16)
}

fn numbers(text: &str) -> u32 {
    text.split(|c: char| !c.is_ascii_digit())
        .filter_map(|word| word.parse::<u32>().ok())
        .fold(0, |sum, number| sum.wrapping_mul(31).wrapping_add(number))
}

fn run(rounds: u32) -> u32 {
    let (mut sum, mut out) = (0u32, String::new());
    for round in 0..rounds {
        let shape = match round % 3 {
            0 => Shape::Point,
            1 => Shape::Circle { radius: round * 3 },
            _ => Shape::Box(round as i32 - 100, -7),
        };
        out.clear();
        if row(&mut out, round.wrapping_mul(7919), shape).is_err() {
            return 0;
        }
        let name = format!("{}-{}", &out[1..4], round);
        sum = out.bytes().chain(name.bytes()).fold(sum, |sum, byte| sum.rotate_left(5) ^ u32::from(byte));
        sum ^= numbers(&out);
    }
    sum
}

program!(run(4_500));
