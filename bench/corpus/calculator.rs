//! A parser of sums and products that may fail at each step, by `Option`, `?` and `Result`; it names the place of a fault.
#[macro_use]
mod program;

enum Fault { Unexpected(usize), Overflow(usize), ByZero }

struct Parser<'a> {
    text: &'a [u8],
    at: usize,
    names: [Option<i32>; 26],
}

impl Parser<'_> {
    fn peek(&mut self) -> Option<u8> {
        self.at += self.text[self.at..].iter().take_while(|byte| **byte == b' ').count();
        self.text.get(self.at).copied()
    }

    fn accept(&mut self, wanted: u8) -> Option<()> {
        (self.peek()? == wanted).then(|| self.at += 1)
    }

    fn number(&mut self) -> Result<i32, Fault> {
        let mut value = 0i32;
        while let Some(digit) = self.text.get(self.at).and_then(|byte| char::from(*byte).to_digit(10)) {
            value = value.checked_mul(10).and_then(|ten| ten.checked_add(digit as i32)).ok_or(Fault::Overflow(self.at))?;
            self.at += 1;
        }
        Ok(value)
    }

    fn factor(&mut self) -> Result<i32, Fault> {
        match self.peek() {
            Some(b'0'..=b'9') => self.number(),
            Some(name @ b'a'..=b'z') => {
                self.at += 1;
                self.names[usize::from(name - b'a')].ok_or(Fault::Unexpected(self.at))
            }
            Some(b'(') => {
                self.at += 1;
                let value = self.sum()?;
                self.accept(b')').map(|()| value).ok_or(Fault::Unexpected(self.at))
            }
            _ => Err(Fault::Unexpected(self.at)),
        }
    }

    fn product(&mut self) -> Result<i32, Fault> {
        let mut value = self.factor()?;
        loop {
            if self.accept(b'*').is_some() {
                value = value.checked_mul(self.factor()?).ok_or(Fault::Overflow(self.at))?;
            } else if self.accept(b'/').is_some() {
                value = value.checked_div(self.factor()?).ok_or(Fault::ByZero)?;
            } else {
                return Ok(value);
            }
        }
    }

    fn sum(&mut self) -> Result<i32, Fault> {
        let mut value = self.product()?;
        while let Some(sign @ (b'+' | b'-')) = self.peek() {
            self.at += 1;
            let other = self.product()?;
            let next = if sign == b'+' { value.checked_add(other) } else { value.checked_sub(other) };
            value = next.ok_or(Fault::Overflow(self.at))?;
        }
        Ok(value)
    }
}

const TEXTS: [&str; 6] = ["1 + 2 * (x - 3) / 2", "((a)) * (b + 17) - 4*c*c", "12345 * 99999 * x", "7 / (x - x)", "a + (b * ",
                           "9*x/3+8*(7-(6-5))"];

fn run(rounds: i32) -> u32 {
    (0..rounds).fold(0u32, |sum, round| {
        let mut names = [Some(round % 1000); 26];
        names[2] = if round % 5 == 0 { None } else { Some(round % 77) };
        let mut parser = Parser { text: TEXTS[round as usize % TEXTS.len()].as_bytes(), at: 0, names };
        sum.wrapping_mul(31).wrapping_add(match parser.sum() {
            Ok(value) => value as u32,
            Err(Fault::Unexpected(at)) => 1000 + at as u32,
            Err(Fault::Overflow(at)) => 2000 + at as u32,
            Err(Fault::ByZero) => 3000,
        })
    })
}

program!(run(30_000));
