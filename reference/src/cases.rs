//! The limits among the sheets to try, and one case for every other refusal.

use crate::book::{chores_of, lookup};
use crate::checks::{check_list, check_prices, ListVerdict, PriceVerdict};
use crate::compose;
use crate::limits::{MAX_AGENTS, MAX_CHORES, MAX_SLACK, MAX_WEIGHT, MIN_SCRATCH};
use crate::share_out::{allocate, ShareOut};
use std::fmt::Display;

/// One line per case: its name, then the answer.
pub fn print() -> String {
    let lines = [limits(), slacks(), refusals()].concat();
    lines.iter().map(|line| format!("{line}\n")).collect()
}

/// Sheet C of the scope document, and its share-out.
const ROWS: [&str; 2] = ["eeeee", "dddde"];
const OWNERS: [u8; 5] = [2, 2, 1, 1, 2];
const PRICES: [u32; 5] = [3, 3, 3, 3, 1];

fn sheet_c() -> Vec<u8> {
    compose::sheet(1, 3, &ROWS)
}

/// Each limit, at it and one past it.
fn limits() -> Vec<String> {
    let mut lines = Vec::new();
    for n in [MAX_AGENTS, MAX_AGENTS + 1] {
        let sheet = compose::sheet(1, 2, &vec!["eed"; n]);
        lines.push(format!("n {n} {}", shared(&sheet, MIN_SCRATCH)));
    }
    for m in [MAX_CHORES, MAX_CHORES + 1] {
        let sheet = compose::sheet(1, 2, &vec!["e".repeat(m); 2]);
        lines.push(format!("m {m} {}", shared(&sheet, MIN_SCRATCH)));
    }
    for b in [MAX_WEIGHT as u16, MAX_WEIGHT as u16 + 1] {
        let sheet = compose::sheet(1, b, &ROWS);
        lines.push(format!("b {b} {}", shared(&sheet, MIN_SCRATCH)));
    }
    for scratch in [MIN_SCRATCH, MIN_SCRATCH - 1] {
        lines.push(format!("scratch {scratch} {}", shared(&sheet_c(), scratch)));
    }
    lines
}

/// The slack likewise. It is refused after a lent list that is too short.
fn slacks() -> Vec<String> {
    let (at, past, m) = (MAX_SLACK, MAX_SLACK + 1, OWNERS.len());
    let verdict = |slack, lent| listed(&sheet_c(), &OWNERS, slack, lent);
    vec![
        format!("slack {at} {}", verdict(at, m)),
        format!("slack {past} {}", verdict(past, m)),
        format!("slack {past} lent {} {}", m - 1, verdict(past, m - 1)),
    ]
}

/// The numbers that no limit above gives, each by a fault at the end of C, of
/// its list or of its prices, or by a lookup in a book of C and of no bytes.
fn refusals() -> Vec<String> {
    let sheet = sheet_c();
    let (last, most) = (sheet.len() - 1, OWNERS.len() - 1);
    // The bit after the last chore's.
    let after = most + 2;
    let mut marked = sheet.clone();
    marked[last] |= 1 << (8 - after);
    let mut owners = OWNERS;
    owners[most] = 3;
    let mut prices = PRICES;
    prices[most] = 0;
    let book = compose::book(&[sheet.as_slice(), &[]]);
    let mut lines = vec![
        format!("bit {after} {}", shared(&marked, MIN_SCRATCH)),
        format!("length {last} {}", shared(&sheet[..last], MIN_SCRATCH)),
        format!(
            "owners {most} {}",
            listed(&sheet, &OWNERS[..most], 1, MAX_CHORES)
        ),
        format!("owner 3 {}", listed(&sheet, &owners, 1, MAX_CHORES)),
        format!("price 0 {}", priced(&sheet, &prices)),
    ];
    lines.extend((0..=3).map(|number| format!("sheet {number} {}", found(&book, number))));
    lines
}

fn refused(number: u8) -> String {
    format!("refused {number}")
}

fn shared(sheet: &[u8], scratch: usize) -> String {
    let mut owners = [0; MAX_CHORES + 1];
    let mut prices = [0; MAX_CHORES + 1];
    match allocate(sheet, &mut owners, &mut prices, &mut vec![0; scratch]) {
        ShareOut::Refused(number) => refused(number),
        ShareOut::Shared { moves, cuts } => {
            let m = chores_of(sheet);
            let (owners, prices) = (spaced(&owners[..m]), spaced(&prices[..m]));
            format!("moves {moves} cuts {cuts} owners{owners} prices{prices}")
        }
    }
}

fn spaced<T: Display>(numbers: &[T]) -> String {
    numbers.iter().map(|number| format!(" {number}")).collect()
}

fn listed(sheet: &[u8], owners: &[u8], slack: u8, lent: usize) -> String {
    match check_list(sheet, owners, slack, &mut vec![0; lent]) {
        ListVerdict::Refused(number) => refused(number),
        ListVerdict::Holds => "holds".to_string(),
        verdict => format!("{verdict:?}"),
    }
}

fn priced(sheet: &[u8], prices: &[u32]) -> String {
    match check_prices(sheet, &OWNERS, prices) {
        PriceVerdict::Refused(number) => refused(number),
        verdict => format!("{verdict:?}"),
    }
}

fn found(book: &[u8], number: usize) -> String {
    match lookup(book, number) {
        Err(number) => refused(number),
        Ok(sheet) => format!("of {} bytes {}", sheet.len(), shared(sheet, MIN_SCRATCH)),
    }
}
