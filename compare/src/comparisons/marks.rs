//! The marks of an agent, shown out of either of two strands. They are those of
//! the joined sheet.

use super::joins::joined;
use crate::random::Random;
use crate::strands::{any_pair, Pair};
use crate::{header, show_marks, PROVED};
use reference::sheet::{row_bytes, HEADER_BYTES};
use reference::Strand;

/// What is told of a row: the refusal number or 0, the strand, start and size.
type Told = (u8, u8, usize, usize);

/// How many places are looked at, in what order: see `places`.
const PLACES: usize = 7;

/// The place that may be any.
const SOME: usize = 5;

/// What the second program tells; after a refusal the rest is as it was.
fn expected(pair: &Pair, agent: usize, chore: usize, held: Told) -> Told {
    let (_, strand, start, size) = held;
    let shown = match reference::show_marks(&pair.first, &pair.second, agent, chore) {
        Err(number) => return (number, strand, start, size),
        Ok(shown) => shown,
    };
    let sheet = match shown.strand {
        Strand::First => &pair.first,
        Strand::Second => &pair.second,
    };
    let start = shown.marks.as_ptr() as usize - sheet.as_ptr() as usize;
    (0, shown.strand as u8, start, shown.marks.len())
}

/// What both programs tell, which is of the joined sheet if there is one.
fn shown(random: &mut Random, pair: &Pair, whole: Option<&[u8]>, of: [usize; 2]) -> u8 {
    let [agent, chore] = of;
    let words = [random.word() as usize, random.word() as usize];
    let held = (0, random.byte(), words[0], words[1]);
    let (_, mut strand, mut start, mut size) = held;
    let number = show_marks(pair, agent, chore, &mut strand, &mut start, &mut size);
    let got = (number, strand, start, size);
    let told = expected(pair, agent, chore, held);
    assert_eq!(got, told, "agent {agent}, chore {chore} of {pair:?}");
    if number == 0 {
        let whole = whole.expect("what can be shown can be joined");
        assert_part(pair, whole, of, got);
    }
    number
}

/// The bits of some bytes, the high bit of each first.
fn bits(bytes: &[u8]) -> Vec<bool> {
    let of_byte = |&byte: &u8| (0..8).map(move |place| byte << place & 128 != 0);
    bytes.iter().flat_map(of_byte).collect()
}

/// The marks told are the joined sheet's of that agent in that strand, and no
/// bit is set after them.
fn assert_part(pair: &Pair, whole: &[u8], [agent, chore]: [usize; 2], told: Told) {
    let (_, strand, start, size) = told;
    let [first, second] = pair.chores();
    let row = header::row(whole);
    let both = bits(&whole[HEADER_BYTES + (agent - 1) * row..][..row]);
    let (sheet, part) = match strand {
        1 => (&pair.first, &both[..first]),
        2 => (&pair.second, &both[first..][..second]),
        other => panic!("strand {other}"),
    };
    assert_eq!(size, row_bytes(part.len()), "{pair:?}");
    let shown = bits(&sheet[start..][..size]);
    let (marks, rest) = shown.split_at(part.len());
    assert_eq!(marks, part, "{pair:?}");
    assert!(!rest.contains(&true), "{pair:?}");
    assert_eq!(strand == 1, chore <= first, "{pair:?}");
}

/// The chores at the seam and at the ends, one that is there or nearly, and
/// one that is not, each for an agent who is there or nearly.
fn places(random: &mut Random, pair: &Pair) -> [[usize; 2]; PLACES] {
    let (agents, [first, second]) = (pair.agents(), pair.chores());
    let all = first + second;
    let some = random.below(all + 2);
    let absent = [usize::MAX, all + 256, some + 256][random.below(3)];
    [first, first + 1, 1, all, all + 1, some, absent].map(|chore| {
        let agent = match random.below(16) {
            0 => [0, agents + 1, agents + 256, usize::MAX][random.below(4)],
            1 => agents,
            _ => 1 + random.below(agents.max(1)),
        };
        [agent, chore]
    })
}

/// What was told of two strands.
#[derive(Debug)]
pub struct Marks {
    pub pair: Pair,
    /// For each place the refusal number or 0; the seam's chores come first.
    pub numbers: [u8; PLACES],
}

impl Marks {
    /// For the chore that is there or nearly.
    pub fn number(&self) -> u8 {
        self.numbers[SOME]
    }
}

/// Of any two strands.
pub fn any(random: &mut Random) -> Marks {
    let pair = any_pair(random);
    let whole = joined(&PROVED, random, &pair, pair.bytes()).ok();
    let numbers = places(random, &pair).map(|place| shown(random, &pair, whole.as_deref(), place));
    Marks { pair, numbers }
}
