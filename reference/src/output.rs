//! What `shares` prints, and the lines that `why` prints too.

use crate::book::{chores_of, sheets_of, Tally};
use crate::limits::{MAX_CHORES, MIN_SCRATCH};
use crate::share_out::{allocate, ShareOut};
use std::fmt::Display;

/// The whole print for one book.
pub fn shares(book: &[u8]) -> String {
    sheet_by_sheet(book, sheet_lines)
}

/// The lines of each sheet, which add to the tally, and the tally after them.
pub fn sheet_by_sheet(
    book: &[u8],
    mut lines: impl FnMut(usize, &[u8], &mut Tally) -> String,
) -> String {
    let bodies = match sheets_of(book) {
        Ok(bodies) => bodies,
        Err(number) => return book_refused(number),
    };
    let mut total = Tally::default();
    let mut print = String::new();
    for (index, body) in bodies.into_iter().enumerate() {
        print += &lines(index + 1, body, &mut total);
    }
    print + &total_line(total)
}

fn sheet_lines(number: usize, sheet: &[u8], total: &mut Tally) -> String {
    let mut owners = [0; MAX_CHORES];
    let mut prices = [0; MAX_CHORES];
    let (moves, cuts) = match allocate(sheet, &mut owners, &mut prices, &mut [0; MIN_SCRATCH]) {
        ShareOut::Refused(refusal) => return sheet_refused(number, refusal),
        ShareOut::Shared { moves, cuts } => (moves, cuts),
    };
    total.add(moves, cuts);
    let chores = chores_of(sheet);
    [
        sheet_shared(number, moves, cuts),
        line("owners", &owners[..chores]),
        line("prices", &prices[..chores]),
    ]
    .concat()
}

fn book_refused(number: u8) -> String {
    format!("book refused {number}\n")
}

pub fn sheet_refused(number: usize, refusal: u8) -> String {
    format!("sheet {number} refused {refusal}\n")
}

pub fn sheet_shared(number: usize, moves: u64, cuts: u8) -> String {
    format!("sheet {number} moves {moves} cuts {cuts}\n")
}

fn total_line(total: Tally) -> String {
    format!("total moves {} cuts {}\n", total.moves, total.cuts)
}

/// A word and its numbers; the word alone where there are none.
pub fn line<T: Display>(word: &str, numbers: &[T]) -> String {
    let mut line = word.to_string();
    for number in numbers {
        line += &format!(" {number}");
    }
    line + "\n"
}
