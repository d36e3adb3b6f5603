//! Lists that respect the measure: proved, and the second program's. Which list it
//! is, is left free, so they may differ.

use crate::columns::NAME_ALONE;
use crate::sheets::{few_easy, halves, sheets, Make};
use crate::timing::in_turn;
use compare::comparisons::measured_lists::assert_qualifies;
use compare::random::Random;
use compare::shapes;
use reference::limits::{MAX_AGENTS, MAX_CHORES};
use reference::measured_list::by_improving;
use reference::measures;
use reference::sheet::Sheet;

/// What a call is lent.
type Lent = [u8; MAX_CHORES];

/// One way to make a list.
type Way = fn(&mut Lent, &[u8]);

fn proved(lent: &mut Lent, sheet: &[u8]) {
    let number = compare::measured_list(sheet, lent);
    assert_eq!(number, 0);
}

fn second(lent: &mut Lent, sheet: &[u8]) {
    match reference::measured_list(sheet, lent.len()) {
        Ok(owners) => lent[..owners.len()].copy_from_slice(&owners),
        Err(number) => panic!("refused {number}"),
    }
}

/// Each list has both properties.
fn assert_right(sheet: &[u8], chores: usize) {
    for way in [proved, second] as [Way; 2] {
        let mut lent = [0; MAX_CHORES];
        way(&mut lent, sheet);
        assert_qualifies(sheet, &lent[..chores]);
    }
}

/// How many lists the second program finds wasteful before the one that it answers.
/// The proved call may take more or fewer.
fn improvements(sheet: &[u8]) -> usize {
    let measures = measures(sheet).expect("one weight is a multiple of the other");
    let sheet = Sheet::parse(sheet).expect("the sheet was accepted");
    by_improving(&sheet, &measures).improvements
}

fn run(way: Way, sheets: &[Vec<u8>]) -> impl FnMut() + '_ {
    let mut lent = [0; MAX_CHORES];
    move || sheets.iter().for_each(|sheet| way(&mut lent, sheet))
}

fn row(name: &str, chores: usize, sheets: &[Vec<u8>]) {
    for sheet in sheets {
        assert_right(sheet, chores);
    }
    let all: usize = sheets.iter().map(|sheet| improvements(sheet)).sum();
    let by_sheet = all as f64 / sheets.len() as f64;
    let ways: [&mut dyn FnMut(); 2] = [&mut run(proved, sheets), &mut run(second, sheets)];
    let [proved, second] = in_turn(sheets.len(), ways);
    println!(
        "{name:<NAME_ALONE$}{proved:>10.2}{second:>11.2}{:>7.2}{by_sheet:>27.1}",
        proved / second
    );
}

pub fn table(random: &mut Random) {
    println!(
        "{:<NAME_ALONE$}{:>10}{:>11}{:>7}{:>27}",
        "measured list", "proved", "reference", "ratio", "improvements by reference"
    );
    let rows: [(usize, &str, Make); 4] = [
        (200, "random", halves),
        (200, "difficult 0.97", few_easy),
        (MAX_CHORES, "random", halves),
        (MAX_CHORES, "difficult 0.97", few_easy),
    ];
    for (chores, kind, make) in rows {
        let name = format!("{MAX_AGENTS} x {chores}, {kind}");
        row(&name, chores, &sheets(random, make, MAX_AGENTS, chores));
    }
    let nested = shapes::nested(MAX_AGENTS, MAX_CHORES, (1, 2));
    row(
        "32 x 4000, nested likes, weights 1 and 2",
        MAX_CHORES,
        &[nested],
    );
}
