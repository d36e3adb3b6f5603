//! Random strands to be joined.

use crate::damage::damaged;
use crate::random::{weights, Random};
use crate::{header, shapes, sizes};
use reference::compose;
use reference::limits::{MAX_AGENTS, MAX_CHORES, MAX_WEIGHT};
use reference::sheet::{row_bytes, HEADER_BYTES};

/// The sheets of two strands, whether or not they break a rule.
#[derive(Debug)]
pub struct Pair {
    pub first: Vec<u8>,
    pub second: Vec<u8>,
}

impl Pair {
    /// The agents of the first strand, by its header.
    pub fn agents(&self) -> usize {
        header::agents(&self.first)
    }

    /// The chores of each strand, by its header.
    pub fn chores(&self) -> [usize; 2] {
        [&self.first, &self.second].map(|sheet| header::chores(sheet))
    }

    /// The bytes of the joined sheet, if there is one.
    pub fn bytes(&self) -> usize {
        HEADER_BYTES + self.agents() * row_bytes(self.chores().iter().sum())
    }
}

/// What two strands must have in common.
#[derive(Debug, Clone, Copy)]
struct Terms {
    agents: usize,
    easy: u16,
    difficult: u16,
}

/// Agreeing mostly; now and then with other terms for the second, or with a
/// fault in one sheet or in both.
pub fn any_pair(random: &mut Random) -> Pair {
    let (agents, chores) = sizes(random);
    let (easy, difficult) = weights(random);
    let terms = Terms {
        agents,
        easy,
        difficult,
    };
    let second_terms = match random.below(6) {
        0 => other_terms(random, terms),
        _ => terms,
    };
    let mut pair = Pair {
        first: sheet(random, terms, chores[0]),
        second: sheet(random, second_terms, chores[1]),
    };
    for sheet in [&mut pair.first, &mut pair.second] {
        if random.chance(22) {
            *sheet = damaged(random, sheet.clone());
        }
    }
    pair
}

/// Agents, and the chores of each strand: few mostly; some as many as two
/// strands may have together, a few less, one or two more, or any number.
fn sizes(random: &mut Random) -> (usize, [usize; 2]) {
    match random.below(200) {
        0..=23 => {
            let both = [MAX_CHORES + random.below(3), MAX_CHORES - random.below(8)];
            let both = both[random.below(2)];
            let one = sizes::chores(random, both.min(MAX_CHORES));
            (few_agents(random), [one, both - one])
        }
        24..=26 => {
            let chores = [(); 2].map(|_| sizes::chores(random, MAX_CHORES));
            (any_agents(random), chores)
        }
        27..=38 => {
            let chores = [(); 2].map(|_| sizes::chores(random, 200));
            (any_agents(random), chores)
        }
        _ => {
            let chores = [(); 2].map(|_| few_chores(random));
            (1 + random.below(6), chores)
        }
    }
}

/// None now and then, and one more than a sheet may have.
fn few_chores(random: &mut Random) -> usize {
    match random.below(72) {
        0 => MAX_CHORES + 1,
        1..=9 => 0,
        _ => sizes::chores(random, 25),
    }
}

fn few_agents(random: &mut Random) -> usize {
    1 + random.below(3)
}

fn any_agents(random: &mut Random) -> usize {
    1 + random.below(MAX_AGENTS)
}

/// One of the three is any that keeps the rules, or the same by chance.
fn other_terms(random: &mut Random, mut terms: Terms) -> Terms {
    let Terms {
        easy, difficult, ..
    } = terms;
    match random.below(3) {
        0 => terms.agents = any_agents(random),
        1 => terms.easy = 1 + random.below(usize::from(difficult) - 1) as u16,
        _ => {
            let above = MAX_WEIGHT as usize - usize::from(easy);
            terms.difficult = easy + 1 + random.below(above) as u16;
        }
    }
    terms
}

fn sheet(random: &mut Random, terms: Terms, chores: usize) -> Vec<u8> {
    let shape = shapes::any_shape(random);
    let rows = shapes::rows(random, shape, terms.agents, chores);
    compose::sheet(terms.easy, terms.difficult, &rows)
}

/// For the joined sheet: exact, a byte short, shorter, longer.
pub fn lent_length(random: &mut Random, pair: &Pair) -> usize {
    let exact = pair.bytes();
    match random.below(8) {
        0 => exact - 1,
        1 => random.below(exact),
        2 | 3 => exact + 1 + random.below(40),
        _ => exact,
    }
}
