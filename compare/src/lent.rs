//! Memory to lend: random content, with entries around it that must stay.

use crate::random::Random;
use reference::limits::{MAX_AGENTS, MIN_SCRATCH};
use reference::price_bytes::PRICE_BYTES;

/// An odd number, so that a list of prices seldom starts at a multiple of four.
const MARGIN: usize = 13;

/// More than the prices of most books take.
const NEW_BYTES: usize = 1_200;

#[derive(Debug, Clone)]
pub struct Lent<T> {
    before: Vec<T>,
    now: Vec<T>,
}

impl Lent<u8> {
    pub fn bytes(random: &mut Random, length: usize) -> Self {
        Self::with(random.bytes(length + 2 * MARGIN))
    }
}

impl<T: Clone + PartialEq> Lent<T> {
    pub fn new(length: usize, mut next: impl FnMut() -> T) -> Self {
        Self::with((0..length + 2 * MARGIN).map(|_| next()).collect())
    }

    fn with(before: Vec<T>) -> Self {
        let now = before.clone();
        Lent { before, now }
    }

    /// The lent part.
    pub fn part(&mut self) -> &mut [T] {
        let end = self.now.len() - MARGIN;
        &mut self.now[MARGIN..end]
    }

    /// The lent part, where its length is known.
    pub fn array<const N: usize>(&mut self) -> &mut [T; N] {
        let part = self.part();
        part.try_into().expect("the array is as long as was lent")
    }

    /// What the lent part holds now.
    pub fn now(&self) -> &[T] {
        &self.now[MARGIN..self.now.len() - MARGIN]
    }

    /// What the lent part held at first.
    pub fn at_first(&self) -> &[T] {
        &self.before[MARGIN..self.before.len() - MARGIN]
    }

    /// The lent part holds this now, and the entries around it are as they were.
    pub fn holds(&self, expected: &[T]) -> bool {
        let end = self.now.len() - MARGIN;
        self.now() == expected
            && self.now[..MARGIN] == self.before[..MARGIN]
            && self.now[end..] == self.before[end..]
    }
}

/// A long list for each of two programs, with the same content. What a call
/// leaves is there for the next one, so that it need not be made anew.
#[derive(Debug)]
pub struct Twins {
    lists: [Vec<u8>; 2],
}

impl Twins {
    /// Lists of up to so many bytes can be lent.
    pub fn new(random: &mut Random, most: usize) -> Self {
        let list = random.bytes(most + 2 * MARGIN);
        Twins {
            lists: [list.clone(), list],
        }
    }

    /// The same part of either, where some bytes at the start are new.
    pub fn lend(&mut self, random: &mut Random, length: usize) -> [&mut [u8]; 2] {
        let start = random.bytes(length.min(NEW_BYTES));
        self.lists.each_mut().map(|list| {
            let part = &mut list[MARGIN..][..length];
            part[..start.len()].copy_from_slice(&start);
            part
        })
    }

    /// Both hold the same, in the parts lent and beside them.
    pub fn agree(&self) -> bool {
        self.lists[0] == self.lists[1]
    }
}

/// Lengths of the owners, the bytes of prices and the scratch.
pub type Lengths = [usize; 3];

/// For a share-out: lists of m entries or some more; bytes beyond the last whole price, too.
pub fn enough(random: &mut Random, chores: usize) -> Lengths {
    [
        chores + random.below(4),
        PRICE_BYTES * chores + random.below(11),
        enough_scratch(random),
    ]
}

/// The same with one list shorter, often too short, or with short scratch.
pub fn short(random: &mut Random, chores: usize) -> Lengths {
    let mut lengths = enough(random, chores);
    match random.below(3) {
        2 => lengths[2] = short_scratch(random),
        list => lengths[list] = lengths[list].saturating_sub(1 + random.below(12)),
    }
    lengths
}

/// Any at all, each of them often too short for a small sheet.
pub fn any(random: &mut Random) -> Lengths {
    let scratch = [enough_scratch, short_scratch][random.below(2)];
    [random.below(20), random.below(80), scratch(random)]
}

/// Often no byte more than it must be, up to some hundreds more, or as many as
/// releases before 6.2.10 asked for.
pub fn enough_scratch(random: &mut Random) -> usize {
    match random.below(8) {
        0..=2 => MIN_SCRATCH,
        3 => MIN_SCRATCH + 1,
        4 => 1_024,
        _ => MIN_SCRATCH + random.below(400),
    }
}

/// None, one byte, or 31 to 63: with 31 not even all distances fit.
pub fn short_scratch(random: &mut Random) -> usize {
    match random.below(8) {
        0 => random.below(2),
        1 => MIN_SCRATCH - 1,
        _ => MAX_AGENTS - 1 + random.below(MIN_SCRATCH - MAX_AGENTS + 1),
    }
}

/// The owners, the bytes of prices, the scratch and, if there is one, the record hold what is expected, and nothing beside them has
/// changed.
pub fn assert_all_hold<const LISTS: usize>(
    lent: &[Lent<u8>; LISTS],
    expected: [Vec<u8>; LISTS],
    input: &[u8],
) {
    let names = ["owners", "prices", "scratch", "record"];
    assert!(LISTS <= names.len());
    for ((lent, expected), name) in lent.iter().zip(expected).zip(names) {
        assert!(
            lent.holds(&expected),
            "{name} of {input:?}: {:?} for {expected:?}, or a byte beside them",
            lent.now()
        );
    }
}
