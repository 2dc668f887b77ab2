//! A map of one's own with robin hood hashing, over keys that are hashed through a trait.
#[macro_use]
mod program;

trait Key: Copy + Eq {
    fn hash(self) -> u64;
}

impl Key for (u16, u16) {
    fn hash(self) -> u64 {
        (u64::from(self.0) << 16 | u64::from(self.1)).wrapping_mul(0xD6E8_FEB8_6659_FD93).rotate_left(17)
    }
}

struct Map<K, V> {
    slots: Vec<Option<(K, V)>>,
    count: usize,
}

impl<K: Key, V: Copy + Default> Map<K, V> {
    fn new() -> Self {
        Map { slots: vec![None; 16], count: 0 }
    }

    fn home(&self, key: K) -> usize {
        (key.hash() >> 40) as usize & (self.slots.len() - 1)
    }

    fn far(&self, slot: usize, key: K) -> usize {
        slot.wrapping_sub(self.home(key)) & (self.slots.len() - 1)
    }

    fn find(&self, key: K) -> Option<usize> {
        let (mut slot, mut steps) = (self.home(key), 0);
        while let Some((other, _)) = self.slots[slot] {
            if other == key {
                return Some(slot);
            }
            if self.far(slot, other) < steps {
                return None;
            }
            (slot, steps) = ((slot + 1) & (self.slots.len() - 1), steps + 1);
        }
        None
    }

    fn put(&mut self, mut key: K, mut value: V) {
        let (mut slot, mut steps) = (self.home(key), 0);
        while let Some((other, held)) = self.slots[slot] {
            let far = self.far(slot, other);
            if far < steps {
                self.slots[slot] = Some((key, value));
                (key, value, steps) = (other, held, far);
            }
            (slot, steps) = ((slot + 1) & (self.slots.len() - 1), steps + 1);
        }
        self.slots[slot] = Some((key, value));
        self.count += 1;
    }

    fn entry(&mut self, key: K) -> &mut V {
        if self.find(key).is_none() {
            if self.count * 4 >= self.slots.len() * 3 {
                let more = vec![None; self.slots.len() * 2];
                let old = std::mem::replace(&mut self.slots, more);
                self.count = 0;
                old.into_iter().flatten().for_each(|(key, value)| self.put(key, value));
            }
            self.put(key, V::default());
        }
        let slot = self.find(key).unwrap_or(0);
        &mut self.slots[slot].as_mut().expect("it was put").1
    }
}

fn run(rounds: u32) -> u32 {
    let (mut one, mut two) = (Map::<(u16, u16), u32>::new(), Map::<(u16, u16), u64>::new());
    let (mut state, mut sum) = (3u32, 0u32);
    for round in 0..rounds {
        state = state.wrapping_mul(1664525).wrapping_add(1013904223);
        *one.entry((0, (state >> 19) as u16)) += round;
        *two.entry(((state >> 25) as u16, (state >> 16 & 31) as u16)) += u64::from(state);
        sum = sum.rotate_left(3) ^ *one.entry((0, round as u16 & 8191));
    }
    two.slots.iter().flatten().fold(sum, |sum, (_, value)| sum.wrapping_mul(31) ^ (*value >> 9) as u32)
}

program!(run(110_000));
