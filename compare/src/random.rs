//! A small deterministic generator, and random parts of sheets.

/// xorshift64*: enough for test data.
#[derive(Debug, Clone)]
pub struct Random(u64);

impl Random {
    pub fn new(seed: u64) -> Self {
        Random(seed.wrapping_mul(0x9e37_79b9_7f4a_7c15) | 1)
    }

    pub fn word(&mut self) -> u64 {
        self.0 ^= self.0 >> 12;
        self.0 ^= self.0 << 25;
        self.0 ^= self.0 >> 27;
        self.0.wrapping_mul(0x2545_f491_4f6c_dd1d)
    }

    /// From 0 to `bound` - 1.
    pub fn below(&mut self, bound: usize) -> usize {
        ((self.word() >> 33) as usize) % bound
    }

    pub fn byte(&mut self) -> u8 {
        (self.word() >> 40) as u8
    }

    pub fn bytes(&mut self, length: usize) -> Vec<u8> {
        let mut bytes = Vec::with_capacity(length + 8);
        while bytes.len() < length {
            bytes.extend(self.word().to_le_bytes());
        }
        bytes.truncate(length);
        bytes
    }

    pub fn chance(&mut self, percent: usize) -> bool {
        self.below(100) < percent
    }
}

/// Weights 1 and 2 to 999 and 1,000, small ones and the ends most often.
pub fn weights(random: &mut Random) -> (u16, u16) {
    let top = match random.below(6) {
        0 => return (1, 1_000),
        1 => return (999, 1_000),
        2 => 3,
        3 => 5,
        4 => 20,
        _ => 1_000,
    };
    let easy = 1 + random.below(top - 1);
    let difficult = easy + 1 + random.below(top - easy);
    (easy as u16, difficult as u16)
}

/// Weights of which the difficult one is a multiple of the easy one, small ones and
/// the ends most often.
pub fn factored_weights(random: &mut Random) -> (u16, u16) {
    let (most_easy, most_times) = match random.below(6) {
        0 => return (1, 1_000),
        1 => return (500, 1_000),
        2 => (1, 4),
        3 => (5, 4),
        4 => (20, 50),
        _ => (500, 1_000),
    };
    let easy = 1 + random.below(most_easy);
    let times = 2 + random.below(most_times.min(1_000 / easy) - 1);
    (easy as u16, (easy * times) as u16)
}

pub fn owners(random: &mut Random, agents: usize, chores: usize) -> Vec<u8> {
    (0..chores)
        .map(|_| 1 + random.below(agents) as u8)
        .collect()
}

/// As many chores for each agent as there can be, in any order. Of the lists that
/// nobody envies at all, such are wasteful most often.
pub fn dealt(random: &mut Random, agents: usize, chores: usize) -> Vec<u8> {
    let mut owners: Vec<u8> = (0..chores)
        .map(|chore| 1 + (chore % agents) as u8)
        .collect();
    shuffle(random, &mut owners);
    owners
}

pub fn shuffle<T>(random: &mut Random, list: &mut [T]) {
    for end in (1..list.len()).rev() {
        list.swap(end, random.below(end + 1));
    }
}
