//! SHA-256 and Fletcher's sum over slices that come in chunks, by `chunks_exact`, `try_into` and `from_be_bytes`.
#[macro_use]
mod program;

const ROOTS: [u32; 8] = [0x6a09e667, 0xbb67ae85, 0x3c6ef372, 0xa54ff53a, 0x510e527f, 0x9b05688c, 0x1f83d9ab, 0x5be0cd19];

/// The first 32 bits after the point of the cube roots of the first 64 primes.
fn constants() -> Vec<u32> {
    (2u128..)
        .filter(|n| (2..*n).take_while(|d| d * d <= *n).all(|d| n % d > 0))
        .map(|prime| {
            let (mut low, mut high) = (0u128, 8 << 32);
            while high - low > 1 {
                let middle = (low + high) / 2;
                if middle * middle * middle <= prime << 96 { low = middle } else { high = middle }
            }
            low as u32
        })
        .take(64)
        .collect()
}

struct Sha256 {
    constants: Vec<u32>,
    state: [u32; 8],
    held: Vec<u8>,
    length: u64,
}

impl Sha256 {
    fn compress(&mut self, block: &[u8]) {
        let words = block.chunks_exact(4).map(|word| u32::from_be_bytes(word.try_into().unwrap_or_default()));
        let mut w: Vec<u32> = words.collect();
        for i in 16..64 {
            let (a, b) = (w[i - 15], w[i - 2]);
            let one = a.rotate_right(7) ^ a.rotate_right(18) ^ a >> 3;
            let two = b.rotate_right(17) ^ b.rotate_right(19) ^ b >> 10;
            w.push(w[i - 16].wrapping_add(one).wrapping_add(w[i - 7]).wrapping_add(two));
        }
        let [mut a, mut b, mut c, mut d, mut e, mut f, mut g, mut h] = self.state;
        for (word, constant) in w.iter().zip(&self.constants) {
            let one = e.rotate_right(6) ^ e.rotate_right(11) ^ e.rotate_right(25);
            let t = h.wrapping_add(one).wrapping_add((e & f) ^ (!e & g)).wrapping_add(*constant).wrapping_add(*word);
            let two = a.rotate_right(2) ^ a.rotate_right(13) ^ a.rotate_right(22);
            let u = two.wrapping_add((a & b) ^ (a & c) ^ (b & c));
            (h, g, f, e, d, c, b, a) = (g, f, e, d.wrapping_add(t), c, b, a, t.wrapping_add(u));
        }
        for (old, new) in self.state.iter_mut().zip([a, b, c, d, e, f, g, h]) {
            *old = old.wrapping_add(new);
        }
    }

    fn add(&mut self, data: &[u8]) {
        self.held.extend_from_slice(data);
        self.length += data.len() as u64;
        let held = std::mem::take(&mut self.held);
        let blocks = held.chunks_exact(64);
        self.held = blocks.remainder().to_vec();
        blocks.for_each(|block| self.compress(block));
    }

    fn end(mut self) -> [u32; 8] {
        let bits = self.length * 8;
        let zeros = (119 - self.held.len()) % 64;
        self.add(&[&[0x80][..], &vec![0; zeros], &bits.to_be_bytes()].concat());
        self.state
    }
}

fn fletcher(data: &[u8]) -> u32 {
    data.chunks(2).fold((0u32, 0u32), |(a, b), pair| {
        let sum = (a + pair.iter().fold(0, |word, byte| word << 8 | u32::from(*byte))) % 65535;
        (sum, (b + sum) % 65535)
    }).1
}

fn run(rounds: usize) -> u32 {
    let data: Vec<u8> = (0..6000u32).map(|i| (i * i >> 5) as u8).collect();
    (0..rounds).fold(0u32, |sum, round| {
        let mut sha = Sha256 { constants: constants(), state: ROOTS, held: Vec::new(), length: 0 };
        data[round..].chunks(round % 100 + 1).for_each(|chunk| sha.add(chunk));
        sha.end().iter().fold(sum ^ fletcher(&data[round..]), |sum, word| sum.wrapping_mul(31) ^ word)
    })
}

program!(run(32));
