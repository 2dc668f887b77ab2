//! A machine of states that reads a stream of messages byte by byte: headers, escapes, lengths, check sums, and faults.
#[macro_use]
mod program;

#[derive(Clone, Copy, PartialEq)]
enum State {
    Idle,
    Kind,
    Length { kind: u8, high: Option<u8> },
    Payload { kind: u8, left: u16, escaped: bool },
    Check { kind: u8 },
}

#[derive(Default)]
struct Counts { messages: [u32; 4], faults: u32, bytes: u32 }

struct Receiver { state: State, check: u8, payload: Vec<u8>, counts: Counts, sum: u32 }

impl Receiver {
    fn receive(&mut self, byte: u8) {
        self.check = self.check.rotate_left(1) ^ byte;
        self.state = match self.state {
            State::Idle if byte == 0x7e => State::Kind,
            State::Idle => State::Idle,
            State::Kind if byte < 4 => {
                self.payload.clear();
                self.check = byte;
                State::Length { kind: byte, high: None }
            }
            State::Kind => self.fault(),
            State::Length { kind, high: None } => State::Length { kind, high: Some(byte) },
            State::Length { kind, high: Some(high) } => match u16::from_be_bytes([high, byte]) {
                0 => State::Check { kind },
                left @ 1..=300 => State::Payload { kind, left, escaped: false },
                _ => self.fault(),
            },
            State::Payload { kind, left, escaped: false } if byte == 0x7d => State::Payload { kind, left, escaped: true },
            State::Payload { kind, left, escaped } => {
                self.payload.push(if escaped { byte ^ 0x20 } else { byte });
                if left == 1 { State::Check { kind } } else { State::Payload { kind, left: left - 1, escaped: false } }
            }
            State::Check { kind } if self.check & 7 != 7 => self.done(kind),
            State::Check { .. } => self.fault(),
        };
    }

    fn fault(&mut self) -> State {
        self.counts.faults += 1;
        State::Idle
    }

    fn done(&mut self, kind: u8) -> State {
        self.counts.messages[usize::from(kind)] += 1;
        self.counts.bytes += self.payload.len() as u32;
        self.sum = self.payload.iter().fold(self.sum, |sum, byte| sum.wrapping_mul(31).wrapping_add(u32::from(*byte)));
        State::Idle
    }
}

fn send(stream: &mut Vec<u8>, kind: u8, seed: u32, length: u32) {
    stream.extend([0x7e, kind, (length >> 8) as u8, length as u8]);
    for at in 0..length {
        match (seed.wrapping_mul(at * at + 7) >> 11) as u8 {
            byte @ (0x7d | 0x7e) => stream.extend([0x7d, byte ^ 0x20]),
            byte => stream.push(byte),
        }
    }
    stream.push(seed as u8);
}

fn run(rounds: u32) -> u32 {
    let (mut stream, mut state) = (Vec::new(), 1u32);
    let mut receiver = Receiver { state: State::Idle, check: 0, payload: Vec::new(), counts: Counts::default(), sum: 0 };
    for _ in 0..rounds {
        stream.clear();
        for _ in 0..40 {
            state = state.wrapping_mul(1664525).wrapping_add(1013904223);
            send(&mut stream, (state >> 29) as u8, state, state >> 12 & 511);
        }
        stream.iter().for_each(|byte| receiver.receive(*byte));
    }
    let counts = &receiver.counts;
    let sum = counts.messages.iter().fold(receiver.sum, |sum, count| sum.wrapping_mul(31).wrapping_add(*count));
    sum ^ counts.faults ^ counts.bytes
}

program!(run(60));
