//! The record of a run: on worked sheets, by its length, and played back.

mod common;

use common::{a, b, c, chores_of, d, e, f, g, share, Random};
use reference::limits::MIN_SCRATCH;
use reference::record::{self, Recorded, MOVE_BYTES};
use reference::share_out::opening;
use reference::sheet::Sheet;
use reference::{compose, ShareOut};
use std::collections::BTreeSet;

/// A sheet with its record, a row for each move.
type Row = (Vec<u8>, &'static [[u8; MOVE_BYTES]]);

/// The result for an accepted sheet, with its whole record.
fn recorded(sheet: &[u8]) -> Recorded {
    record::work(&Sheet::parse(sheet).unwrap(), &mut [80; MIN_SCRATCH])
}

fn record_of(sheet: &[u8]) -> Vec<u8> {
    recorded(sheet).record
}

#[test]
fn records_of_worked_sheets() {
    let of_2a = compose::sheet(1, 3, &["deddddddd", "ddddddddd", "ddeddddde"]);
    let by_count = compose::sheet(1, 3, &["eedd", "eddd"]);
    let table: [Row; 9] = [
        (a(), &[]),
        (b(), &[[0, 1, 1, 2, 1, 2], [0, 2, 1, 2, 1, 2]]),
        (
            c(),
            &[[0, 5, 1, 2, 1, 2], [0, 1, 1, 2, 2, 2], [0, 2, 1, 2, 2, 2]],
        ),
        (d(), &[[0, 1, 1, 2, 1, 2]]),
        (e(), &[]),
        (f(), &[[0, 1, 1, 2, 1, 2]]),
        (g(), &[[0, 1, 1, 3, 1, 2]]),
        (by_count, &[[0, 3, 2, 1, 1, 2]]),
        (
            of_2a,
            &[
                [0, 3, 2, 3, 1, 2],
                [0, 9, 2, 3, 1, 2],
                [0, 1, 2, 1, 2, 2],
                [0, 4, 2, 1, 2, 2],
                [0, 1, 1, 3, 3, 1],
                [0, 5, 2, 1, 3, 2],
                [0, 6, 2, 3, 3, 2],
            ],
        ),
    ];
    for (sheet, record) in table {
        assert_eq!(record_of(&sheet), record.concat(), "{sheet:?}");
    }
}

/// All that was lent for a sheet of 5 chores, after a share-out with a record.
struct Lent {
    owners: [u8; 6],
    prices: [u32; 6],
    scratch: [u8; MIN_SCRATCH],
    record: Vec<u8>,
}

fn share_recorded(sheet: &[u8], record_bytes: usize) -> (ShareOut, Lent) {
    let mut lent = Lent {
        owners: [77; 6],
        prices: [78; 6],
        scratch: [79; MIN_SCRATCH],
        record: vec![80; record_bytes],
    };
    let Lent {
        owners,
        prices,
        scratch,
        record,
    } = &mut lent;
    let answer = record::allocate(sheet, owners, prices, scratch, record);
    (answer, lent)
}

#[test]
fn a_short_record_is_refused() {
    for length in 0..18 {
        let (answer, lent) = share_recorded(&c(), length);
        assert_eq!(answer, ShareOut::Refused(11));
        assert_eq!(lent.owners, [77; 6]);
        assert_eq!(lent.prices, [78; 6]);
        assert_eq!(lent.scratch, [79; MIN_SCRATCH]);
        assert_eq!(lent.record, vec![80; length]);
    }
}

#[test]
fn the_rest_of_a_record_is_kept() {
    for length in [18, 19, 24, 120_000] {
        let (answer, lent) = share_recorded(&c(), length);
        assert_eq!(answer, ShareOut::Shared { moves: 3, cuts: 1 });
        assert_eq!(lent.owners, [2, 2, 1, 1, 2, 77]);
        assert_eq!(lent.prices, [3, 3, 3, 3, 1, 78]);
        assert_eq!(lent.scratch, [0; MIN_SCRATCH]);
        assert_eq!(lent.record[..18], record_of(&c()));
        assert_eq!(lent.record[18..], vec![80; length - 18]);
    }
}

#[test]
fn no_moves_need_no_record() {
    let (answer, lent) = share_recorded(&e(), 0);
    assert_eq!(answer, ShareOut::Shared { moves: 0, cuts: 0 });
    assert_eq!(lent.owners, [1, 2, 77, 77, 77, 77]);
    assert_eq!(lent.scratch, [0; MIN_SCRATCH]);
    let (_, lent) = share_recorded(&e(), 7);
    assert_eq!(lent.record, [80; 7]);
}

/// The rows of a sheet, straight from its bytes: a digit for each mark, 1 for
/// difficult.
fn digits(sheet: &[u8]) -> Vec<String> {
    let chores = chores_of(sheet);
    let row = |bytes: &[u8]| {
        let digits: String = bytes.iter().map(|byte| format!("{byte:08b}")).collect();
        digits[..chores].to_string()
    };
    let bytes = chores.div_ceil(8).max(1);
    sheet[7..].chunks(bytes).map(row).collect()
}

/// The opening list, by those digits.
fn opening_of(sheet: &[u8]) -> Vec<u8> {
    let rows = digits(sheet);
    let easy = |row: &str, chore: usize| row.as_bytes()[chore] == b'0' || !row.contains('0');
    // Agents with the number of their chores first, so that the fewest lead.
    let mut queue: BTreeSet<(usize, u8)> = (1..=sheet[0]).map(|agent| (0, agent)).collect();
    let mut owner = |chore: usize| {
        let mut rows = rows.iter().zip(1..);
        let liking = rows.find(|(row, _)| easy(row, chore));
        let agent = liking.map_or(queue.first().unwrap().1, |(_, agent)| agent);
        let of_agent = |place: &&(usize, u8)| place.1 == agent;
        let place = *queue.iter().find(of_agent).unwrap();
        queue.remove(&place);
        queue.insert((place.0 + 1, agent));
        agent
    };
    (0..chores_of(sheet)).map(&mut owner).collect()
}

/// Plays a record over the opening list: each giver owns what it hands over,
/// and rounds never fall. Hands back the final list and the last round.
fn played(sheet: &[u8], record: &[u8]) -> (Vec<u8>, u8) {
    let mut owners = opening_of(sheet);
    assert_eq!(owners, opening(&Sheet::parse(sheet).unwrap()), "{sheet:?}");
    let mut last = (1, 1);
    for entry in record.chunks_exact(MOVE_BYTES) {
        let chore = usize::from(entry[0]) * 256 + usize::from(entry[1]);
        let (giver, receiver, round, step) = (entry[2], entry[3], entry[4], entry[5]);
        assert_eq!(owners[chore - 1], giver, "{sheet:?} {entry:?}");
        assert_ne!(giver, receiver, "{sheet:?} {entry:?}");
        assert!((1..=sheet[0]).contains(&receiver), "{sheet:?} {entry:?}");
        // Step 2a has no groups to work on before round 3.
        assert!(
            step == 2 || (step == 1 && round >= 3),
            "{sheet:?} {entry:?}"
        );
        assert!(last <= (round, step), "{sheet:?} {entry:?} after {last:?}");
        last = (round, step);
        owners[chore - 1] = receiver;
    }
    (owners, last.0)
}

/// Hands back the cuts, and the moves of steps 2a and 2b.
fn judge(sheet: &[u8]) -> (u8, [usize; 2]) {
    let (owners, prices, moves, cuts) = share(sheet).unwrap();
    let Recorded { worked, record } = recorded(sheet);
    assert_eq!(worked.owners, owners, "{sheet:?}");
    assert_eq!(worked.prices, prices, "{sheet:?}");
    assert_eq!(worked.moves, moves, "{sheet:?}");
    assert_eq!(worked.cuts, cuts, "{sheet:?}");
    assert_eq!(record.len(), MOVE_BYTES * moves as usize, "{sheet:?}");
    let (list, round) = played(sheet, &record);
    assert_eq!(list, owners, "{sheet:?}");
    assert!(round <= cuts + 1, "{sheet:?}");
    let of = |step: u8| record.chunks(MOVE_BYTES).filter(|m| m[5] == step).count();
    (cuts, [of(1), of(2)])
}

#[test]
fn random_sheets() {
    let mut random = Random::new(31);
    let (mut most_cuts, mut all) = (0, [0; 2]);
    for round in 0..12_000 {
        let (agents, chores) = match round % 20 {
            0 => random.size(),
            _ => (1 + random.below(8), random.below(31)),
        };
        let (cuts, moves) = judge(&random.sheet(agents, chores));
        most_cuts = cuts.max(most_cuts);
        all = [all[0] + moves[0], all[1] + moves[1]];
    }
    assert!(most_cuts >= 4, "{most_cuts}");
    assert!(all[0] > 500 && all[1] > 50_000, "{all:?}");
}
