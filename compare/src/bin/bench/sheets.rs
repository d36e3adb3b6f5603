//! The sheets of a row. Their weights are 1 and 3.

use crate::share_outs::Desk;
use compare::random::Random;
use compare::shapes::{self, Shape};
use reference::compose;

/// Sheets of each row; of more than 200 chores there are fewer.
pub const COUNT: usize = 8;
pub const COUNT_OF_LONG: usize = 3;

pub type Make = fn(&mut Random, usize, usize) -> Vec<u8>;

/// How many sheets of so many chores a row has.
pub fn count(chores: usize) -> usize {
    if is_long(chores) {
        COUNT_OF_LONG
    } else {
        COUNT
    }
}

fn is_long(chores: usize) -> bool {
    chores > 200
}

pub fn sheets(random: &mut Random, make: Make, agents: usize, chores: usize) -> Vec<Vec<u8>> {
    let sheet = |_| make(random, agents, chores);
    (0..count(chores)).map(sheet).collect()
}

/// A row of random marks, of which so many in a hundred are easy.
fn row(random: &mut Random, chores: usize, percent: usize) -> String {
    let mark = |_| if random.chance(percent) { 'e' } else { 'd' };
    (0..chores).map(mark).collect()
}

fn of_marks(random: &mut Random, agents: usize, chores: usize, percent: usize) -> Vec<u8> {
    let rows: Vec<String> = (0..agents).map(|_| row(random, chores, percent)).collect();
    compose::sheet(1, 3, &rows)
}

/// Random marks, half of them easy.
pub fn halves(random: &mut Random, agents: usize, chores: usize) -> Vec<u8> {
    of_marks(random, agents, chores, 50)
}

/// Random marks, of which 3 in a hundred are easy.
pub fn few_easy(random: &mut Random, agents: usize, chores: usize) -> Vec<u8> {
    of_marks(random, agents, chores, 3)
}

/// For three agents in four every chore is difficult; for the others every
/// other one is, at random.
pub fn all_difficult(random: &mut Random, agents: usize, chores: usize) -> Vec<u8> {
    let mut rows = vec!["d".repeat(chores); agents / 4 * 3];
    rows.resize_with(agents, || row(random, chores, 50));
    compose::sheet(1, 3, &rows)
}

/// Every chore is easy for the first agent, and nearly half of them for each
/// other one: what they all like is handed over, and after a cut some more.
pub fn many_moves(random: &mut Random, agents: usize, chores: usize) -> Vec<u8> {
    let mut rows = vec!["e".repeat(chores)];
    rows.resize_with(agents, || row(random, chores, 45));
    compose::sheet(1, 3, &rows)
}

/// Disjoint likes, of the sheets that take the most cuts.
pub fn ladder(random: &mut Random, agents: usize, chores: usize) -> Vec<u8> {
    let tries = if is_long(chores) { 8 } else { 200 };
    let tried = (0..tries).map(|_| {
        let rows = shapes::rows(random, Shape::Ladder, agents, chores);
        let sheet = compose::sheet(1, 3, &rows);
        (Desk::after(Desk::second, &sheet).cuts, rows)
    });
    let (_, rows) = tried.max().expect("some sheet is tried");
    compose::sheet(1, 3, &rows)
}
