//! The share-out with a record against the second program: owners, prices,
//! moves, cuts, the record and all lent memory; and against the share-out
//! without a record.

use compare::comparisons::records::{faulty, of_every_length, Faulty};
use compare::random::Random;
use compare::{shapes, sizes};
use reference::limits::MAX_CHORES;
use reference::record::MOVE_BYTES;
use reference::refusal;
use reference::sheet::Sheet;

const SHEETS: usize = 100_000;
const LONG: usize = 32;
const FAULTY: usize = 100_000;

/// How many sheets have many chores that nobody likes, how many took a move, the
/// most moves, the highest chore and the last round of any, and the moves of step
/// 2a of all.
#[derive(Debug, Default)]
struct Seen {
    dear: usize,
    moved: usize,
    moves: usize,
    chore: usize,
    round: u8,
    of_2a: usize,
}

impl Seen {
    fn add(&mut self, sheet: &[u8], record: &[u8]) {
        let parsed = Sheet::parse(sheet).expect("the sheet keeps the rules");
        self.dear += usize::from(shapes::is_dear(&parsed));
        self.moved += usize::from(!record.is_empty());
        self.moves = self.moves.max(record.len() / MOVE_BYTES);
        for entry in record.chunks_exact(MOVE_BYTES) {
            let chore = 256 * usize::from(entry[0]) + usize::from(entry[1]);
            self.chore = self.chore.max(chore);
            self.round = self.round.max(entry[4]);
            self.of_2a += usize::from(entry[5] == 1);
        }
    }
}

/// Sheets of these numbers of chores, each with records of every length, up to
/// one with room for `most` moves.
fn compare_all(
    seed: u64,
    count: usize,
    sheet: fn(&mut Random) -> Vec<u8>,
    numbers: impl IntoIterator<Item = usize>,
    most: u64,
) -> Seen {
    let mut random = Random::new(seed);
    let (mut seen, mut sizes) = (Seen::default(), sizes::Seen::default());
    for _ in 0..count {
        let (sheet, record) = of_every_length(&mut random, sheet, most);
        seen.add(&sheet, &record);
        sizes.add(&sheet);
    }
    println!("{seen:?}");
    assert!(seen.dear > count / 3, "{seen:?}");
    sizes.assert_all(numbers, 1);
    seen
}

#[test]
fn records_of_every_length() {
    let seen = compare_all(51, SHEETS, shapes::any_sheet, sizes::around_bytes(200), 500);
    assert!(seen.moved > SHEETS / 2 && seen.moved < SHEETS, "{seen:?}");
    assert!(seen.moves > 150 && seen.round > 8, "{seen:?}");
    assert!(seen.of_2a > 1_000, "{seen:?}");
}

/// Records of chores that take both bytes of their number.
#[test]
fn records_of_long_sheets() {
    let seen = compare_all(53, LONG, shapes::long_sheet, sizes::LONGEST, 20_000);
    assert!(
        seen.moves > 1_000 && seen.chore > MAX_CHORES / 2,
        "{seen:?}"
    );
}

#[test]
fn faults_one_and_several() {
    let mut random = Random::new(52);
    let mut numbers = [0; 12];
    let mut before_the_record = 0;
    for _ in 0..FAULTY {
        let Faulty {
            number, is_short, ..
        } = faulty(&mut random);
        numbers[usize::from(number)] += 1;
        // A short list is found before a short record.
        before_the_record += usize::from(number == refusal::LENT && is_short);
    }
    for number in [0, 1, 2, 3, 4, 5, 8, 11] {
        assert!(numbers[number] > 1_000, "{numbers:?}");
    }
    assert!(before_the_record > 1_000, "{before_the_record}");
}
