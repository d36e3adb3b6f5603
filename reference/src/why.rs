//! What `why` prints: every move between the opening and the final list.

use crate::book::{chores_of, Tally};
use crate::limits::{MAX_CHORES, MIN_SCRATCH, WHY_RECORD_BYTES};
use crate::output::{line, sheet_by_sheet, sheet_refused, sheet_shared};
use crate::record::{self, MOVE_BYTES};
use crate::share_out::{opening, ShareOut};
use crate::sheet::Sheet;

/// The whole print for one book.
pub fn why(book: &[u8]) -> String {
    why_lending(WHY_RECORD_BYTES, book)
}

/// The same with a record of so many bytes for each sheet.
pub fn why_lending(record_bytes: usize, book: &[u8]) -> String {
    let mut record = vec![0; record_bytes];
    sheet_by_sheet(book, |number, sheet, total| {
        sheet_lines(number, sheet, &mut record, total)
    })
}

fn sheet_lines(number: usize, sheet: &[u8], record: &mut [u8], total: &mut Tally) -> String {
    let mut owners = [0; MAX_CHORES];
    let mut prices = [0; MAX_CHORES];
    let mut scratch = [0; MIN_SCRATCH];
    let answer = record::allocate(sheet, &mut owners, &mut prices, &mut scratch, record);
    let (moves, cuts) = match answer {
        ShareOut::Refused(refusal) => return sheet_refused(number, refusal),
        ShareOut::Shared { moves, cuts } => (moves, cuts),
    };
    total.add(moves, cuts);
    let chores = chores_of(sheet);
    [
        sheet_shared(number, moves, cuts),
        line("opening", &opening_of(sheet)),
        move_lines(&record[..MOVE_BYTES * moves as usize]),
        line("owners", &owners[..chores]),
        line("prices", &prices[..chores]),
    ]
    .concat()
}

fn opening_of(sheet: &[u8]) -> Vec<u8> {
    opening(&Sheet::parse(sheet).expect("the sheet was accepted"))
}

fn move_lines(record: &[u8]) -> String {
    record.chunks_exact(MOVE_BYTES).map(move_line).collect()
}

fn move_line(entry: &[u8]) -> String {
    let chore = u16::from_be_bytes([entry[0], entry[1]]);
    let (giver, receiver, round, step) = (entry[2], entry[3], entry[4], entry[5]);
    format!("reel {chore} from {giver} to {receiver} round {round} step {step}\n")
}
