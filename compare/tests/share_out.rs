//! The share-out against the second program: owners, prices, moves, cuts and
//! all lent memory. No share-out takes more moves than it may.

use compare::bound::parts;
use compare::comparisons::share_outs::{damaged, kept, with_enough, with_short_lists};
use compare::damage::one_or_two;
use compare::random::Random;
use compare::shapes::{self, Shape};
use compare::sizes;
use reference::limits::MAX_CHORES;
use reference::share_out::Way;
use reference::sheet::{row_bytes, Sheet, HEADER_BYTES};
use reference::{plain, share_out, ShareOut};

// Sheets that keep the rules: 100,000 in all.
const SMALL: usize = 50_000;
const MEDIUM: usize = 38_000;
const LARGE: usize = 9_000;
const WIDE: usize = 2_690;
const LONG: usize = 300;
const LARGEST: usize = 10;

const DAMAGED: usize = 45_000;
const SHORT: usize = 40_000;

/// How many sheets have many chores that nobody likes, how many took a cut, the
/// most moves and cuts of any, and the greatest part of each bound on moves that
/// any came to.
#[derive(Debug, Default)]
struct Seen {
    dear: usize,
    cut: usize,
    moves: u64,
    cuts: u8,
    parts: [f64; 2],
}

impl Seen {
    fn add(&mut self, sheet: &[u8], moves: u64, cuts: u8) {
        let parsed = Sheet::parse(sheet).expect("the sheet was accepted");
        self.dear += usize::from(shapes::is_dear(&parsed));
        self.cut += usize::from(cuts > 0);
        self.moves = self.moves.max(moves);
        self.cuts = self.cuts.max(cuts);
        for (seen, part) in self.parts.iter_mut().zip(parts(sheet, moves, cuts)) {
            *seen = part.max(*seen);
        }
    }
}

/// Sheets of each of these numbers of chores are among those compared.
fn compare_all(
    seed: u64,
    count: usize,
    way: Way,
    sheet: fn(&mut Random) -> Vec<u8>,
    numbers: impl IntoIterator<Item = usize>,
) -> Seen {
    let mut random = Random::new(seed);
    let (mut seen, mut sizes) = (Seen::default(), sizes::Seen::default());
    for _ in 0..count {
        let (sheet, answer) = kept(&mut random, way, sheet);
        if let ShareOut::Shared { moves, cuts } = answer {
            seen.add(&sheet, moves, cuts);
        }
        sizes.add(&sheet);
    }
    println!("{seen:?}");
    assert!(seen.dear > count / 3, "{seen:?}");
    sizes.assert_all(numbers, 1 + count / 1_000);
    seen
}

#[test]
fn small_sheets() {
    let seen = compare_all(11, SMALL, share_out::work, shapes::small_sheet, 0..=17);
    assert!(seen.cut > SMALL / 20 && seen.cuts > 1, "{seen:?}");
}

#[test]
fn medium_sheets() {
    let seen = compare_all(12, MEDIUM, plain::work, shapes::medium_sheet, 0..=65);
    assert!(seen.cut > MEDIUM / 10 && seen.cuts > 4, "{seen:?}");
}

#[test]
fn large_sheets() {
    let numbers = sizes::around_bytes(200);
    let seen = compare_all(13, LARGE, plain::work, shapes::large_sheet, numbers);
    assert!(seen.cuts > 10 && seen.moves > 150, "{seen:?}");
}

/// Of 32 agents and 200 chores.
#[test]
fn wide_sheets() {
    let seen = compare_all(14, WIDE, plain::work, shapes::wide_sheet, [200]);
    assert!(seen.cut > WIDE / 3 && seen.cuts > 4, "{seen:?}");
}

#[test]
fn long_sheets() {
    let seen = compare_all(17, LONG, plain::work, shapes::long_sheet, sizes::LONGEST);
    assert!(seen.cut > LONG / 10 && seen.moves > 2_000, "{seen:?}");
}

#[test]
fn largest_sheets() {
    let seen = compare_all(
        18,
        LARGEST,
        plain::work,
        shapes::largest_sheet,
        [MAX_CHORES],
    );
    assert!(seen.cuts > 0 && seen.moves > 2_000, "{seen:?}");
}

#[test]
fn damaged_sheets() {
    let mut random = Random::new(15);
    let mut numbers = [0; 9];
    for faults in one_or_two().cycle().take(DAMAGED) {
        let (_, answer) = damaged(&mut random, &faults);
        match answer {
            ShareOut::Refused(number) => numbers[usize::from(number)] += 1,
            ShareOut::Shared { .. } => numbers[0] += 1,
        }
    }
    println!("{numbers:?}");
    for number in [0, 1, 2, 3, 4, 5] {
        assert!(numbers[number] > 1_000, "{numbers:?}");
    }
}

/// The number of a sheet with enough lent for it; 0 for none.
fn refused(random: &mut Random, sheet: &[u8]) -> u8 {
    match with_enough(random, plain::work, sheet) {
        ShareOut::Refused(number) => number,
        ShareOut::Shared { .. } => 0,
    }
}

#[test]
fn each_bit_after_the_last_chore() {
    let mut random = Random::new(19);
    for chores in (1..=40).chain(sizes::LONGEST) {
        let agents = 1 + random.below(3);
        let sheet = shapes::sheet(&mut random, Shape::Tempers, agents, chores);
        let row = row_bytes(chores);
        let left = 8 * row - chores;
        for (agent, bit) in (1..=agents).flat_map(|i| (0..left).map(move |bit| (i, bit))) {
            let mut sheet = sheet.clone();
            sheet[HEADER_BYTES + agent * row - 1] |= 1 << bit;
            assert_eq!(refused(&mut random, &sheet), 4, "{sheet:?}");
        }
    }
}

#[test]
fn each_length_around_the_right_one() {
    let mut random = Random::new(20);
    for chores in sizes::around_bytes(40).chain(sizes::LONGEST) {
        let agents = 1 + random.below(3);
        let sheet = shapes::sheet(&mut random, Shape::Dear, agents, chores);
        let exact = sheet.len();
        for length in (0..=9).chain(exact.saturating_sub(3)..=exact + 9) {
            let mut sheet = sheet.clone();
            sheet.resize(length, 0);
            let number = if length == exact { 0 } else { 5 };
            assert_eq!(refused(&mut random, &sheet), number, "{sheet:?}");
        }
    }
}

#[test]
fn short_lists() {
    let mut random = Random::new(16);
    let mut refused = 0;
    for _ in 0..SHORT {
        let (_, answer) = with_short_lists(&mut random);
        refused += usize::from(answer == ShareOut::Refused(8));
    }
    assert!(refused > SHORT / 4 && refused < SHORT, "{refused}");
}
