//! Numbers of chores that fill their bytes or do not, and which of them a test
//! has seen.

use crate::header;
use crate::random::Random;
use reference::limits::MAX_CHORES;
use std::ops::RangeInclusive;

/// The numbers that take as many bytes a row as the most chores do.
pub const LONGEST: RangeInclusive<usize> = MAX_CHORES - 7..=MAX_CHORES;

/// Up to `most` chores, half of the time as many as fill some bytes, or one more
/// or less.
pub fn chores(random: &mut Random, most: usize) -> usize {
    let bytes = (most + 1) / 8;
    if bytes == 0 || random.chance(50) {
        return random.below(most + 1);
    }
    let full = 8 * (1 + random.below(bytes));
    (full - 1 + random.below(3)).min(most)
}

/// The limit or just under it mostly, or any number from 200 on.
pub fn many_chores(random: &mut Random) -> usize {
    match random.below(4) {
        0 => 200 + chores(random, MAX_CHORES - 200),
        _ => LONGEST.start() + random.below(8),
    }
}

/// Every multiple of 8 up to `most`, and the numbers next to it.
pub fn around_bytes(most: usize) -> impl Iterator<Item = usize> {
    (0..=most).filter(|chores| matches!(chores % 8, 0 | 1 | 7))
}

/// How often each number of chores was seen.
#[derive(Debug)]
pub struct Seen(Vec<usize>);

impl Default for Seen {
    fn default() -> Self {
        Seen(vec![0; MAX_CHORES + 1])
    }
}

impl Seen {
    /// A sheet that breaks no rule.
    pub fn add(&mut self, sheet: &[u8]) {
        self.0[header::chores(sheet)] += 1;
    }

    /// Each of these numbers was seen, so often at least.
    pub fn assert_all(&self, numbers: impl IntoIterator<Item = usize>, least: usize) {
        for chores in numbers {
            let count = self.0[chores];
            assert!(count >= least, "{count} sheets of {chores} chores");
        }
    }
}
