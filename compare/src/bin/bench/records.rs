//! The proved share-out with a record of its moves, beside the one without.

use crate::share_outs::{run, Desk};
use crate::sheets::{halves, sheets};
use crate::timing::in_turn;
use compare::random::Random;
use reference::record::MOVE_BYTES;

/// Room for the moves of any sheet here.
const MOVES: usize = 10_000;

fn row(name: &str, sheets: &[Vec<u8>]) {
    let mut desk = Desk::new();
    let mut record = [0; MOVE_BYTES * MOVES];
    let ways: [&mut dyn FnMut(); 2] = [
        &mut || {
            for sheet in sheets {
                desk.recorded(sheet, &mut record);
            }
        },
        &mut run(Desk::proved, sheets),
    ];
    let [recorded, without] = in_turn(sheets.len(), ways);
    println!(
        "{name:<42}{recorded:>10.2}{without:>10.2}{:>7.2}",
        recorded / without
    );
}

pub fn table(random: &mut Random) {
    println!(
        "{:<42}{:>10}{:>10}{:>7}",
        "share-out with a record", "with", "without", "ratio"
    );
    for (agents, chores) in [(3, 200), (6, 60), (32, 200), (32, 4_000)] {
        let name = format!("{agents} x {chores}, random");
        row(&name, &sheets(random, halves, agents, chores));
    }
}
