//! The lookup of a book's sheets.

use crate::books::{bodies, damaged_book};
use crate::random::Random;
use reference::{compose, lookup};

/// Sheets that the book has and some that it has not. The answer for the first
/// is 0 or the refusal number.
pub fn compared(random: &mut Random, book: &[u8]) -> u8 {
    let count = usize::from(book.first().copied().unwrap_or(0));
    let some = 1 + random.below(count + 1);
    let numbers = [0, 1, some, count, count + 1, some + 256, usize::MAX];
    let [_, first, ..] = numbers.map(|number| of_sheet(random, book, number));
    first
}

fn of_sheet(random: &mut Random, book: &[u8], number: usize) -> u8 {
    let before = (random.word() as usize, random.word() as usize);
    let (mut start, mut size) = before;
    let refusal = crate::find_sheet(book, number, &mut start, &mut size);
    let expected = match lookup(book, number) {
        Err(refusal) => (refusal, before.0, before.1),
        Ok(body) => {
            let start = body.as_ptr() as usize - book.as_ptr() as usize;
            (0, start, body.len())
        }
    };
    let got = (refusal, start, size);
    assert_eq!(got, expected, "sheet {number} of {book:?}");
    refusal
}

/// In a book that keeps the rules or one with faults.
pub fn any(random: &mut Random) -> (Vec<u8>, u8) {
    let book = if random.chance(50) {
        compose::book(&bodies(random))
    } else {
        damaged_book(random)
    };
    let number = compared(random, &book);
    (book, number)
}
