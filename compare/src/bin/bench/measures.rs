//! Everyone's own measure: proved, in plain C, and the second program's.

use crate::columns;
use crate::sheets::{halves, sheets};
use crate::timing::in_turn;
use compare::random::Random;
use compare::{Library, PLAIN, PROVED};
use reference::compose;
use reference::limits::MAX_AGENTS;

/// What a call is lent.
type Lent = [u32; MAX_AGENTS];

/// One way to measure.
type Way = fn(&mut Lent, &[u8]);

fn by(library: &Library, lent: &mut Lent, sheet: &[u8]) {
    let number = library.measures(sheet, lent);
    assert_eq!(number, 0);
}

fn proved(lent: &mut Lent, sheet: &[u8]) {
    by(&PROVED, lent, sheet);
}

fn plain(lent: &mut Lent, sheet: &[u8]) {
    by(&PLAIN, lent, sheet);
}

fn second(lent: &mut Lent, sheet: &[u8]) {
    match reference::measures(sheet) {
        Ok(measures) => lent[..measures.len()].copy_from_slice(&measures),
        Err(number) => panic!("refused {number}"),
    }
}

fn after(way: Way, sheet: &[u8]) -> Lent {
    let mut lent = [0; MAX_AGENTS];
    way(&mut lent, sheet);
    lent
}

fn run(way: Way, sheets: &[Vec<u8>]) -> impl FnMut() + '_ {
    let mut lent = [0; MAX_AGENTS];
    move || sheets.iter().for_each(|sheet| way(&mut lent, sheet))
}

/// All three must give the same measures.
fn row(name: &str, sheets: &[Vec<u8>]) {
    for sheet in sheets {
        let [proved, plain, second] = [proved, plain, second].map(|way: Way| after(way, sheet));
        assert_eq!(proved, second, "{sheet:?}");
        assert_eq!(plain, second, "{sheet:?}");
    }
    let ways: [&mut dyn FnMut(); 3] = [
        &mut run(proved, sheets),
        &mut run(plain, sheets),
        &mut run(second, sheets),
    ];
    columns::row(name, in_turn(sheets.len(), ways));
}

/// For every agent one bundle stays behind the others by 1,000, and is filled up a
/// chore at a time: slow for the proved dealing, which looks for the cheapest ones
/// once for all that cost as much.
fn one_behind(agents: usize, chores: usize) -> Vec<u8> {
    let difficult = agents - 1;
    let row = "d".repeat(difficult) + &"e".repeat(chores - difficult);
    compose::sheet(1, 1_000, &vec![row; agents])
}

pub fn table(random: &mut Random) {
    columns::heading("measures");
    for (agents, chores) in [(3, 200), (6, 60), (32, 200), (32, 4_000)] {
        let name = format!("{agents} x {chores}, random");
        row(&name, &sheets(random, halves, agents, chores));
    }
    row("32 x 4000, weights 1 and 1000", &[one_behind(32, 4_000)]);
}
