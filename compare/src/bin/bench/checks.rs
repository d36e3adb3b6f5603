//! The two checks: proved, in plain C, and the second program's. Lists are checked
//! at slack 1, and what holds at the greatest slack, too.

use crate::columns;
use crate::sheets::{halves, sheets};
use crate::timing::in_turn;
use compare::lists::{bytes, shared_out, Given};
use compare::random::Random;
use compare::{Checks, Second, PLAIN, PROVED};
use reference::limits::{MAX_CHORES, MAX_SLACK};
use reference::{ListVerdict, PriceVerdict};

/// In the order of their columns.
const PROGRAMS: [&dyn Checks; 3] = [&PROVED, &PLAIN, &Second];

/// The share-out's list and prices: it holds, and they are accepted.
fn fair(sheet: &[u8]) -> Given {
    let (owners, prices) = shared_out(sheet);
    Given {
        lent: owners.len(),
        sheet: sheet.to_vec(),
        owners,
        slack: 1,
        prices: bytes(prices),
    }
}

/// The same with two chores swapped, so that the list is wasteful.
fn wasteful(random: &mut Random, sheet: &[u8]) -> Given {
    let mut given = fair(sheet);
    let chores = given.owners.len();
    loop {
        let (c, d) = (random.below(chores), random.below(chores));
        given.owners.swap(c, d);
        if proved(&given) == ListVerdict::Wasteful {
            return given;
        }
        given.owners.swap(c, d);
    }
}

/// The same with chores handed to the last agent, so that it envies somebody
/// and nobody before it does: all agents are looked at.
fn unfair(random: &mut Random, sheet: &[u8]) -> Given {
    loop {
        let mut given = fair(sheet);
        let envious = first_envious(random, &mut given);
        if envious == usize::from(sheet[0]) {
            return given;
        }
    }
}

/// Hands chores to the last agent until somebody envies.
fn first_envious(random: &mut Random, given: &mut Given) -> usize {
    loop {
        let chore = random.below(given.owners.len());
        given.owners[chore] = given.sheet[0];
        if let ListVerdict::Unfair(envious, _) = proved(given) {
            return envious;
        }
    }
}

/// What the list check is lent.
type Lent = [u8; MAX_CHORES];

fn check_list(program: &dyn Checks, given: &Given, lent: &mut Lent) -> ListVerdict {
    let lent = &mut lent[..given.lent];
    program.check_list(&given.sheet, &given.owners, given.slack, lent)
}

/// The proved list check.
fn proved(given: &Given) -> ListVerdict {
    check_list(&PROVED, given, &mut [0; MAX_CHORES])
}

fn row(name: &str, all: &[Given], check: impl Fn(&dyn Checks, &Given, &mut Lent)) {
    let run = |program| {
        let mut lent = [0; MAX_CHORES];
        all.iter()
            .for_each(|given| check(program, given, &mut lent));
    };
    let [proved, plain, second] = PROGRAMS;
    let ways: [&mut dyn FnMut(); 3] =
        [&mut || run(proved), &mut || run(plain), &mut || run(second)];
    columns::row(name, in_turn(all.len(), ways));
}

/// All three must say what is expected.
fn list_row(
    random: &mut Random,
    name: &str,
    all: &[Given],
    is_expected: impl Fn(ListVerdict) -> bool,
) {
    for given in all {
        let [proved, plain, second] = PROGRAMS.map(|program| given.judged(program, random));
        assert!(is_expected(second), "{second:?} {given:?}");
        assert_eq!(proved, second, "{given:?}");
        assert_eq!(plain, second, "{given:?}");
    }
    row(name, all, |program, given, lent| {
        check_list(program, given, lent);
    });
}

fn price_row(name: &str, all: &[Given]) {
    for given in all {
        let verdicts = PROGRAMS.map(|program| given.check_prices(program));
        assert_eq!(verdicts, [PriceVerdict::Accepted; 3], "{given:?}");
    }
    row(name, all, |program, given, _| {
        given.check_prices(program);
    });
}

fn rows(random: &mut Random, agents: usize, chores: usize) {
    let sheets = sheets(random, halves, agents, chores);
    let fair: Vec<Given> = sheets.iter().map(|sheet| fair(sheet)).collect();
    let at_most = |sheet: &Vec<u8>| Given {
        slack: MAX_SLACK,
        ..self::fair(sheet)
    };
    let slackest: Vec<Given> = sheets.iter().map(at_most).collect();
    let unfair: Vec<Given> = sheets.iter().map(|sheet| unfair(random, sheet)).collect();
    let wasteful: Vec<Given> = sheets.iter().map(|sheet| wasteful(random, sheet)).collect();
    let name = |kind| format!("{kind}, {agents} x {chores}");
    let holds = |verdict| verdict == ListVerdict::Holds;
    let is_unfair = |verdict| matches!(verdict, ListVerdict::Unfair(i, _) if i == agents);
    let is_wasteful = |verdict| verdict == ListVerdict::Wasteful;
    list_row(random, &name("list: holds"), &fair, holds);
    list_row(random, &name("list: holds at slack 8"), &slackest, holds);
    list_row(random, &name("list: unfair"), &unfair, is_unfair);
    list_row(random, &name("list: wasteful"), &wasteful, is_wasteful);
    price_row(&name("prices: accepted"), &fair);
}

pub fn table(random: &mut Random) {
    columns::heading("check");
    for (agents, chores) in [(3, 200), (6, 60), (32, 200), (32, 4_000)] {
        rows(random, agents, chores);
    }
}
