//! Prices as plain bytes: four to a price, high byte first.

use crate::book::{allocate_book_by, chores_of, sheets_of, BookShareOut};
use crate::checks::{check_prices, PriceVerdict};
use crate::record::{self, Recorded};
use crate::share_out::{allocate_by, ShareOut, Way};
use crate::sheet::Sheet;

pub const PRICE_BYTES: usize = 4;

/// The whole entries of a list; bytes after the last one are left out.
pub fn read(bytes: &[u8]) -> Vec<u32> {
    let entry = |entry: &[u8]| u32::from_be_bytes([entry[0], entry[1], entry[2], entry[3]]);
    bytes.chunks_exact(PRICE_BYTES).map(entry).collect()
}

/// Writes over the whole entries of a list.
pub fn write(prices: &[u32], bytes: &mut [u8]) {
    for (entry, price) in bytes.chunks_exact_mut(PRICE_BYTES).zip(prices) {
        entry.copy_from_slice(&price.to_be_bytes());
    }
}

/// The share-out of a sheet; a price list has as many entries as whole ones.
pub fn allocate(
    work: Way,
    sheet: &[u8],
    owners: &mut [u8],
    prices: &mut [u8],
    scratch: &mut [u8],
) -> ShareOut {
    let mut entries = read(prices);
    let answer = allocate_by(work, sheet, owners, &mut entries, scratch);
    write(&entries, prices);
    answer
}

/// The share-out with a record, with its prices likewise.
pub fn allocate_recorded(
    work: impl FnOnce(&Sheet, &mut [u8]) -> Recorded,
    sheet: &[u8],
    owners: &mut [u8],
    prices: &mut [u8],
    scratch: &mut [u8],
    record: &mut [u8],
) -> ShareOut {
    let mut entries = read(prices);
    let answer = record::allocate_by(work, sheet, owners, &mut entries, scratch, record);
    write(&entries, prices);
    answer
}

/// The share-out of a book, with its prices likewise. Only as many entries as
/// the sheets take are written.
pub fn allocate_book(
    work: Way,
    book: &[u8],
    owners: &mut [u8],
    prices: &mut [u8],
    scratch: &mut [u8],
) -> BookShareOut {
    let mut entries = vec![0; prices.len() / PRICE_BYTES];
    let answer = allocate_book_by(work, book, owners, &mut entries, scratch);
    write(&entries[..entries_taken(book, &answer)], prices);
    answer
}

fn entries_taken(book: &[u8], answer: &BookShareOut) -> usize {
    match answer {
        BookShareOut::Refused(_) => 0,
        BookShareOut::Shared { .. } => {
            let bodies = sheets_of(book).expect("the book was accepted");
            bodies.into_iter().map(chores_of).sum()
        }
    }
}

/// The price check. Bytes that are no whole number of prices count as an
/// entry too many, as the owners are m once the length of prices is judged.
pub fn check(sheet: &[u8], owners: &[u8], prices: &[u8]) -> PriceVerdict {
    let entries = if prices.len().is_multiple_of(PRICE_BYTES) {
        read(prices)
    } else {
        vec![1; owners.len() + 1]
    };
    check_prices(sheet, owners, &entries)
}
