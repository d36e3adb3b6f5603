//! How long the most moves of a share-out would take, at the rate of the slowest
//! sheet. No sheet that is known makes nearly as many, so this is an estimate.

use crate::share_outs::Desk;
use crate::timing::best_of;
use compare::bound::most_moves;
use compare::header;
use compare::random::Random;
use compare::shapes::{self, SHAPES};
use reference::compose;

/// The size of the sheets of a row, how many there are of each shape, and how
/// often each is timed.
struct Row {
    agents: usize,
    chores: usize,
    sheets: usize,
    times: usize,
}

const ROWS: [Row; 3] = [
    Row {
        agents: 6,
        chores: 60,
        sheets: 200,
        times: 20,
    },
    Row {
        agents: 32,
        chores: 200,
        sheets: 200,
        times: 20,
    },
    Row {
        agents: 32,
        chores: 4_000,
        sheets: 6,
        times: 3,
    },
];

/// Microseconds by move, opening and cuts among them. A sheet of few moves would
/// tell of its opening and not of its moves, so it is left out.
fn by_move(sheet: &[u8], times: usize) -> Option<f64> {
    let mut desk = Desk::new();
    let time = best_of(times, || desk.proved(sheet));
    let enough = 2 * desk.moves >= header::chores(sheet) as u64;
    enough.then(|| time / desk.moves as f64)
}

fn print(random: &mut Random, row: &Row) {
    let Row {
        agents,
        chores,
        sheets,
        times,
    } = *row;
    let (mut most, mut timed, mut slowest) = (0, 0, 0.0_f64);
    for shape in SHAPES.into_iter().flat_map(|shape| vec![shape; sheets]) {
        let rows = shapes::rows(random, shape, agents, chores);
        let sheet = compose::sheet(1, 3, &rows);
        most = most_moves(&sheet);
        if let Some(time) = by_move(&sheet, times) {
            timed += 1;
            slowest = slowest.max(time);
        }
    }
    let name = format!("{agents} x {chores}");
    let together = most as f64 * slowest / 1_000.0;
    println!("{name:<26}{most:>9}{timed:>14}{slowest:>14.2}{together:>16.1}");
}

pub fn table(random: &mut Random) {
    println!(
        "{:<26}{:>9}{:>14}{:>14}{:>16}",
        "most moves, estimated", "moves", "sheets timed", "slowest rate", "milliseconds"
    );
    for row in &ROWS {
        print(random, row);
    }
}
