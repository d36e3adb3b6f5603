//! The share-out with a record: owners, prices, moves, cuts, the record and all
//! lent memory. Without a record all is the same.

use crate::bound::most_moves;
use crate::damage::damaged;
use crate::lent::{any, assert_all_hold, enough, short, Lengths, Lent};
use crate::random::Random;
use crate::{allocate_recorded, header, shapes, PROVED};
use reference::limits::MIN_SCRATCH;
use reference::record::{self, Recorded, MOVE_BYTES};
use reference::sheet::Sheet;
use reference::{price_bytes, refusal, ShareOut};

/// The moves and the cuts, and before them the refusal number or 0.
type Counts = (u64, u8);
type Told = (u8, u64, u8);

/// One sheet through both programs, with every byte that was lent compared.
fn compared(
    random: &mut Random,
    work: impl FnOnce(&Sheet, &mut [u8]) -> Recorded,
    sheet: &[u8],
    lengths: Lengths,
    record_length: usize,
) -> u8 {
    let [owners, prices, scratch] = lengths;
    let lengths = [owners, prices, scratch, record_length];
    let mut lent = lengths.map(|length| Lent::bytes(random, length));
    let mut expected = lent.each_ref().map(|lent| lent.at_first().to_vec());
    let held = (random.word(), random.byte());
    let told = {
        let [owners, prices, scratch, record] = &mut expected;
        let answer = price_bytes::allocate_recorded(work, sheet, owners, prices, scratch, record);
        told_of(answer, held)
    };
    let got = {
        let (mut moves, mut cuts) = held;
        let [owners, prices, scratch, record] = lent.each_mut().map(Lent::part);
        let number = allocate_recorded(
            sheet, owners, prices, scratch, record, &mut moves, &mut cuts,
        );
        (number, moves, cuts)
    };
    assert_eq!(
        got, told,
        "number, moves, cuts of {sheet:?}, lent {lengths:?}"
    );
    assert_all_hold(&lent, expected, sheet);
    if got.0 != refusal::RECORD {
        assert_same_without(sheet, &lent, held, got);
    }
    got.0
}

/// A refused call tells its number, and leaves moves and cuts as they were.
fn told_of(answer: ShareOut, held: Counts) -> Told {
    match answer {
        ShareOut::Refused(number) => (number, held.0, held.1),
        ShareOut::Shared { moves, cuts } => (0, moves, cuts),
    }
}

/// Without a record all is the same.
fn assert_same_without(sheet: &[u8], lent: &[Lent<u8>; 4], held: Counts, got: Told) {
    let mut lists = lent.each_ref().map(|lent| lent.at_first().to_vec());
    let (mut moves, mut cuts) = held;
    let [owners, prices, scratch, _] = &mut lists;
    let number = PROVED.allocate(sheet, owners, prices, scratch, &mut moves, &mut cuts);
    assert_eq!(got, (number, moves, cuts), "{sheet:?}");
    for (lent, without) in lent.iter().zip(&lists).take(3) {
        assert_eq!(lent.now(), without, "{sheet:?}");
    }
}

fn worked(sheet: &Sheet) -> Recorded {
    record::work(sheet, &mut [0; MIN_SCRATCH])
}

/// Exact, a byte short, longer, none, and room for the most moves that are
/// made room for.
fn record_lengths(random: &mut Random, exact: usize, most: u64) -> [usize; 5] {
    let longer = exact + 1 + random.below(3 * MOVE_BYTES);
    let room = MOVE_BYTES * most as usize;
    [exact, exact.saturating_sub(1), longer, 0, room]
}

/// A sheet that keeps the rules and its record, which was lent every length, up
/// to one with room for `most` moves.
pub fn of_every_length(
    random: &mut Random,
    make: fn(&mut Random) -> Vec<u8>,
    most: u64,
) -> (Vec<u8>, Vec<u8>) {
    let sheet = make(random);
    let parsed = Sheet::parse(&sheet).expect("the sheet keeps the rules");
    let recorded = worked(&parsed);
    let most = most_moves(&sheet).min(most);
    compare_lengths(random, &sheet, &recorded, most);
    (sheet, recorded.record)
}

fn compare_lengths(random: &mut Random, sheet: &[u8], recorded: &Recorded, most: u64) {
    let exact = recorded.record.len();
    for length in record_lengths(random, exact, most) {
        let work = |_: &Sheet, _: &mut [u8]| recorded.clone();
        let lengths = enough(random, header::chores(sheet));
        let number = compared(random, work, sheet, lengths, length);
        let fits = if length < exact { refusal::RECORD } else { 0 };
        assert_eq!(number, fits, "{sheet:?}, a record of {length}");
    }
}

/// What became of a sheet with any faults, its own or of what was lent.
#[derive(Debug)]
pub struct Faulty {
    pub sheet: Vec<u8>,
    /// 0 for none.
    pub number: u8,
    /// The moves do not fit the record, whether or not that was told.
    pub is_short: bool,
}

pub fn faulty(random: &mut Random) -> Faulty {
    let mut sheet = shapes::small_sheet(random);
    if random.chance(50) {
        sheet = damaged(random, sheet);
    }
    let (chores, exact, most) = Sheet::parse(&sheet).map_or((0, 0, 0), |parsed| {
        let exact = worked(&parsed).record.len();
        (parsed.chores, exact, most_moves(&sheet))
    });
    let lengths = some_lengths(random, chores);
    let length = record_lengths(random, exact, most)[random.below(5)];
    let number = compared(random, record::work, &sheet, lengths, length);
    Faulty {
        sheet,
        number,
        is_short: length < exact,
    }
}

/// Long enough mostly; one list short, or any lengths.
fn some_lengths(random: &mut Random, chores: usize) -> Lengths {
    match random.below(4) {
        0 => short(random, chores),
        1 => any(random),
        _ => enough(random, chores),
    }
}
