//! Texts that are built: pushed, inserted, cut, wrapped to a width, repeated, escaped into a `Cow`, and Roman numbers.
#[macro_use]
mod program;

use std::borrow::Cow;

const WORDS: [&str; 10] = ["river", "a", "of", "mountain", "<b>", "under", "the", "\"quoted\"", "rain & wind", "stone"];

fn roman(mut number: u32) -> String {
    const DIGITS: [(u32, &str); 13] = [(1000, "M"), (900, "CM"), (500, "D"), (400, "CD"), (100, "C"), (90, "XC"), (50, "L"),
                                       (40, "XL"), (10, "X"), (9, "IX"), (5, "V"), (4, "IV"), (1, "I")];
    let mut text = String::new();
    for (value, digit) in DIGITS {
        while number >= value {
            text += digit;
            number -= value;
        }
    }
    text
}

fn escaped(text: &str) -> Cow<'_, str> {
    if !text.contains(|c| matches!(c, '<' | '>' | '&' | '"')) {
        return Cow::Borrowed(text);
    }
    let mut out = String::with_capacity(text.len() + 16);
    for c in text.chars() {
        match c {
            '<' => out.push_str("&lt;"),
            '>' => out.push_str("&gt;"),
            '&' => out.push_str("&amp;"),
            '"' => out.push_str("&quot;"),
            _ => out.push(c),
        }
    }
    Cow::Owned(out)
}

fn wrapped(text: &str, width: usize) -> String {
    let (mut out, mut column) = (String::new(), 0);
    for word in text.split_ascii_whitespace() {
        if column > 0 && column + 1 + word.len() > width {
            out.push('\n');
            column = 0;
        } else if column > 0 {
            out.push(' ');
            column += 1;
        }
        out += word;
        column += word.len();
    }
    out
}

fn edited(mut text: String, state: u32) -> String {
    let at = text.char_indices().nth(state as usize % 40).map_or(0, |(at, _)| at);
    text.insert_str(at, &"=-".repeat(state as usize % 5));
    if let Some(end) = text.rfind("the") {
        text.replace_range(end..end + 3, "THE");
    }
    let tail = text.split_off(text.len() / 2);
    text.retain(|c| c != 'a');
    tail + &text
}

fn run(rounds: u32) -> u32 {
    let (mut sum, mut state) = (0u32, 1u32);
    for round in 0..rounds {
        let mut text = roman(round % 3999 + 1);
        for _ in 0..30 {
            state = state.wrapping_mul(1664525).wrapping_add(1013904223);
            text.push(' ');
            text.push_str(WORDS[(state >> 24) as usize % WORDS.len()]);
        }
        let lines = wrapped(&escaped(&text), 40 + round as usize % 30);
        sum = sum.wrapping_mul(31) ^ lines.lines().map(str::len).max().unwrap_or(0) as u32;
        let done = edited(lines, state >> 8);
        sum = done.bytes().fold(sum, |sum, byte| sum.rotate_left(5).wrapping_add(u32::from(byte)));
        sum ^= done.matches("&quot;").count() as u32 + done.to_lowercase().find("stone").unwrap_or(7) as u32;
    }
    sum
}

program!(run(1_100));
