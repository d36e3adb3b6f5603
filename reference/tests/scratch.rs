//! The scratch: neither what it holds nor how long it is makes a difference, it
//! ends as zeros, and too short a one is refused and kept.

mod common;

use common::{c, chores_of, share, Outcome, Random};
use reference::limits::{BOOK_ENTRIES, MAX_AGENTS, MIN_SCRATCH};
use reference::sheet::Sheet;
use reference::{allocate, allocate_book, compose, record, share_out};
use reference::{BookShareOut, ShareOut, SheetShareOut, Tally};

/// Shares a sheet out in this scratch, with a record or without one.
fn share_in(scratch: &mut [u8], recorded: bool, sheet: &[u8]) -> Outcome {
    let mut owners = vec![0; chores_of(sheet)];
    let mut prices = vec![0; chores_of(sheet)];
    let answer = if recorded {
        let made = &mut [0; 100_000];
        record::allocate(sheet, &mut owners, &mut prices, scratch, made)
    } else {
        allocate(sheet, &mut owners, &mut prices, scratch)
    };
    match answer {
        ShareOut::Refused(number) => Err(number),
        ShareOut::Shared { moves, cuts } => Ok((owners, prices, moves, cuts)),
    }
}

/// Bytes that are all ones, or any.
fn contents(random: &mut Random, length: usize) -> [Vec<u8>; 2] {
    let any = (0..length).map(|_| random.below(256) as u8);
    [vec![255; length], any.collect()]
}

/// The outcome is that of scratch as long as it must be, and of zeros.
fn assert_same_in_any(random: &mut Random, sheet: &[u8]) {
    let expected = share_in(&mut [0; MIN_SCRATCH], false, sheet);
    assert!(expected.is_ok(), "{sheet:?}");
    for length in [64, 65, 100, 1_024, 4_096] {
        for scratch in contents(random, length) {
            for recorded in [false, true] {
                let mut scratch = scratch.clone();
                let outcome = share_in(&mut scratch, recorded, sheet);
                assert_eq!(outcome, expected, "{length} bytes, {sheet:?}");
                assert_eq!(scratch, vec![0; length], "{sheet:?}");
            }
        }
    }
}

#[test]
fn any_length_and_content() {
    let mut random = Random::new(81);
    for _ in 0..1_000 {
        let (agents, chores) = (1 + random.below(MAX_AGENTS), random.below(41));
        let sheet = random.sheet(agents, chores);
        assert_same_in_any(&mut random, &sheet);
    }
}

/// The chores from `first` on, counted from 0. Each but number 0 is easy for
/// two agents and opens with the first of them, so the last agent holds none,
/// and everybody is in line from there to the first one, who may hold two.
fn relay(first: usize) -> Vec<u8> {
    let is_easy = |agent: usize, chore: usize| chore == agent || chore == agent + 1;
    let mark = |agent: usize, chore: usize| if is_easy(agent, chore) { 'e' } else { 'd' };
    let row = |agent: usize| {
        (first..MAX_AGENTS)
            .map(|chore| mark(agent, chore))
            .collect()
    };
    let rows: Vec<String> = (0..MAX_AGENTS).map(row).collect();
    compose::sheet(1, 3, &rows)
}

#[test]
fn everybody_in_line() {
    let owners: Vec<u8> = (1..=32).collect();
    assert_eq!(share(&relay(0)), Ok((owners, vec![3; 32], 31, 0)));
    assert_same_in_any(&mut Random::new(82), &relay(0));
    // No move is due, and one search is all.
    let mut scratch = [255; MIN_SCRATCH];
    share_out::work(&Sheet::parse(&relay(1)).unwrap(), &mut scratch);
    let in_line: Vec<u8> = (1..=32).rev().chain((0..32).rev()).collect();
    assert_eq!(scratch[..], in_line);
}

#[test]
fn sheets_of_a_book() {
    let mut random = Random::new(83);
    let book = compose::book(&[relay(0), vec![], c()]);
    let shared = |moves, cuts, first| SheetShareOut::Shared { moves, cuts, first };
    let sheets = vec![
        shared(31, 0, 0),
        SheetShareOut::Refused(5),
        shared(3, 1, 32),
    ];
    let total = Tally { moves: 34, cuts: 1 };
    let expected = BookShareOut::Shared { sheets, total };
    let (mut owners, mut prices) = (vec![0; BOOK_ENTRIES], vec![0; BOOK_ENTRIES]);
    for length in [64, 65, 1_024] {
        for mut scratch in contents(&mut random, length) {
            let answer = allocate_book(&book, &mut owners, &mut prices, &mut scratch);
            assert_eq!(answer, expected);
            assert_eq!(owners[32..37], [2, 2, 1, 1, 2]);
            assert_eq!(scratch, vec![0; length]);
        }
    }
}

#[test]
fn less_is_refused() {
    let mut random = Random::new(84);
    let book = compose::book(&[c()]);
    let (mut owners, mut prices) = (vec![0; BOOK_ENTRIES], vec![0; BOOK_ENTRIES]);
    for length in 0..64 {
        for before in contents(&mut random, length) {
            let mut scratch = before.clone();
            assert_eq!(share_in(&mut scratch, false, &c()), Err(8));
            assert_eq!(share_in(&mut scratch, true, &c()), Err(8));
            let answer = allocate_book(&book, &mut owners, &mut prices, &mut scratch);
            assert_eq!(answer, BookShareOut::Refused(8));
            assert_eq!(scratch, before);
        }
    }
}
