//! Random books, whole and damaged.

use crate::damage::damaged;
use crate::random::Random;
use crate::{shapes, sizes};
use reference::compose;
use reference::limits::{MAX_BOOK_BYTES, MAX_CHORES, MAX_SHEETS};

/// 1 to 16 bodies, 16 often. Most are small sheets; some are refused.
pub fn bodies(random: &mut Random) -> Vec<Vec<u8>> {
    let count = if random.chance(20) {
        MAX_SHEETS
    } else {
        1 + random.below(MAX_SHEETS)
    };
    let refused = [0, 10, 40, 100][random.below(4)];
    (0..count).map(|_| body(random, refused)).collect()
}

/// `refused` is the chance of a damaged sheet, of which few are still sheets.
fn body(random: &mut Random, refused: usize) -> Vec<u8> {
    let (agents, chores) = (1 + random.below(4), sizes::chores(random, 17));
    let shape = shapes::any_shape(random);
    let sheet = shapes::sheet(random, shape, agents, chores);
    if !random.chance(refused) {
        return sheet;
    }
    match random.below(4) {
        0 => Vec::new(),
        1 => {
            let length = random.below(9);
            random.bytes(length)
        }
        _ => damaged(random, sheet),
    }
}

/// A book of 16 sheets, of up to 20 agents and 200 chores.
pub fn large_book(random: &mut Random) -> Vec<u8> {
    book_of(random, 20, |random| [200, 180][random.below(2)])
}

/// A book that fills both long lists, but for up to so many entries a sheet.
pub fn full_book(random: &mut Random, less: usize) -> Vec<u8> {
    book_of(random, 3, |random| MAX_CHORES - random.below(less + 1))
}

fn book_of(random: &mut Random, agents: usize, chores: impl Fn(&mut Random) -> usize) -> Vec<u8> {
    let mut sheet = || {
        let chores = chores(random);
        shapes::sheet_of(random, agents, chores)
    };
    let sheets: Vec<Vec<u8>> = (0..MAX_SHEETS).map(|_| sheet()).collect();
    compose::book(&sheets)
}

/// A book with a fault or two, most of them in the contents.
pub fn damaged_book(random: &mut Random) -> Vec<u8> {
    let mut book = compose::book(&bodies(random));
    for _ in 0..1 + random.below(2) {
        harm(&mut book, random);
    }
    book
}

fn harm(book: &mut Vec<u8>, random: &mut Random) {
    let count = usize::from(book.first().copied().unwrap_or(0));
    let contents = (1 + 4 * count).min(book.len());
    match random.below(9) {
        0 => book.truncate(random.below(book.len() + 1)),
        1 => {
            let length = 1 + random.below(6);
            book.extend(random.bytes(length));
        }
        2 if !book.is_empty() => book[0] = random.byte(),
        3 if !book.is_empty() => book[0] = random.below(19) as u8,
        4 if contents > 1 => {
            let at = random.below(contents);
            book[at] = random.byte();
        }
        5 if !book.is_empty() => {
            let at = random.below(book.len());
            book[at] ^= 1 << random.below(8);
        }
        // A body that starts inside the one before and ends where it did.
        6 if count > 1 && book.len() == contents.max(book.len()) => {
            let entry = 1 + 4 * (1 + random.below(count - 1));
            if entry + 4 <= book.len() {
                shift(book, entry, -1);
                shift(book, entry + 2, 1);
            }
        }
        // A gap before a body, or a body that ends too late or too soon.
        7 if count > 0 => {
            let at = 1 + 2 * random.below(2 * count);
            if at + 2 <= book.len() {
                let by = if random.chance(50) { 1 } else { -1 };
                shift(book, at, by);
            }
        }
        // Two entries the wrong way round.
        8 if contents >= 9 => {
            let (one, other) = (1 + 4 * random.below(count), 1 + 4 * random.below(count));
            for byte in 0..4 {
                if one.max(other) + byte < book.len() {
                    book.swap(one + byte, other + byte);
                }
            }
        }
        _ => {}
    }
}

/// Adds to a number of two bytes.
fn shift(book: &mut [u8], at: usize, by: i16) {
    let number = u16::from_be_bytes([book[at], book[at + 1]]);
    let number = number.wrapping_add_signed(by);
    book[at..at + 2].copy_from_slice(&number.to_be_bytes());
}

/// One of about as many bytes, or of about as many sheets, as a book may have;
/// whole but for that.
pub fn book_at_a_limit(random: &mut Random) -> Vec<u8> {
    if random.chance(50) {
        let length = MAX_BOOK_BYTES - 2 + random.below(5);
        return compose::book(&[random.bytes(length - 5)]);
    }
    let count = [0, 1, 15, 16, 17, 18][random.below(6)];
    let sheets: Vec<Vec<u8>> = (0..count).map(|_| shapes::small_sheet(random)).collect();
    compose::book(&sheets)
}
