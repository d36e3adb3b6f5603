//! The most moves of a share-out, by its numbers of agents and chores alone.

use crate::header;

/// For each round.
fn round_moves(sheet: &[u8]) -> u64 {
    ((header::agents(sheet) - 1) * header::chores(sheet)) as u64
}

/// In all: no run has more rounds than agents.
pub fn most_moves(sheet: &[u8]) -> u64 {
    header::agents(sheet) as u64 * round_moves(sheet)
}

/// With so many cuts, and in all.
fn bounds(sheet: &[u8], cuts: u8) -> [u64; 2] {
    let rounds = u64::from(cuts) + 1;
    [rounds * round_moves(sheet), most_moves(sheet)]
}

/// The moves of a share-out are no more than they may be.
pub fn assert_few(sheet: &[u8], moves: u64, cuts: u8) {
    let few = bounds(sheet, cuts).iter().all(|&most| moves <= most);
    assert!(few, "{moves} moves, {cuts} cuts: {sheet:?}");
}

/// Which part of each bound they come to.
pub fn parts(sheet: &[u8], moves: u64, cuts: u8) -> [f64; 2] {
    bounds(sheet, cuts).map(|most| moves as f64 / most.max(1) as f64)
}
