//! Books of sheets: the contents, the lookup, and a whole book's share-out.

use crate::limits::{BOOK_ENTRIES, MAX_BOOK_BYTES, MAX_SHEETS, MIN_SCRATCH};
use crate::refusal;
use crate::share_out::{allocate_by, work, ShareOut, Way};
use crate::sheet::Sheet;

pub const ENTRY_BYTES: usize = 4;

/// What became of one sheet of a book.
#[derive(Debug, Clone, Copy, PartialEq, Eq)]
pub enum SheetShareOut {
    Refused(u8),
    /// `first` is the sheet's first entry in the long lists, from 0.
    Shared {
        moves: u64,
        cuts: u8,
        first: usize,
    },
}

/// The moves and cuts of the sheets so far.
#[derive(Debug, Clone, Copy, Default, PartialEq, Eq)]
pub struct Tally {
    pub moves: u64,
    pub cuts: u64,
}

impl Tally {
    pub fn add(&mut self, moves: u64, cuts: u8) {
        self.moves += moves;
        self.cuts += u64::from(cuts);
    }
}

#[derive(Debug, Clone, PartialEq, Eq)]
pub enum BookShareOut {
    Refused(u8),
    Shared {
        sheets: Vec<SheetShareOut>,
        total: Tally,
    },
}

/// The bodies of a book in order, or 9. The sheets themselves are not judged.
pub fn sheets_of(book: &[u8]) -> Result<Vec<&[u8]>, u8> {
    if book.is_empty() || book.len() > MAX_BOOK_BYTES {
        return Err(refusal::BOOK);
    }
    let count = usize::from(book[0]);
    if count == 0 || count > MAX_SHEETS {
        return Err(refusal::BOOK);
    }
    let mut end = 1 + ENTRY_BYTES * count;
    let contents = book.get(1..end).ok_or(refusal::BOOK)?;
    let mut bodies = Vec::with_capacity(count);
    for entry in contents.chunks_exact(ENTRY_BYTES) {
        let start = usize::from(u16::from_be_bytes([entry[0], entry[1]]));
        let length = usize::from(u16::from_be_bytes([entry[2], entry[3]]));
        if start != end {
            return Err(refusal::BOOK);
        }
        end = start + length;
        bodies.push(book.get(start..end).ok_or(refusal::BOOK)?);
    }
    if end != book.len() {
        return Err(refusal::BOOK);
    }
    Ok(bodies)
}

/// The bytes of sheet `number`, counted from 1, as that stretch of the book.
pub fn lookup(book: &[u8], number: usize) -> Result<&[u8], u8> {
    let bodies = sheets_of(book)?;
    if number == 0 || number > bodies.len() {
        return Err(refusal::BOOK);
    }
    Ok(bodies[number - 1])
}

/// Shares out every sheet, each into the next free stretch of both lists.
pub fn allocate_book(
    book: &[u8],
    owners: &mut [u8],
    prices: &mut [u32],
    scratch: &mut [u8],
) -> BookShareOut {
    allocate_book_by(work, book, owners, prices, scratch)
}

/// The share-out with either way to work a sheet.
pub fn allocate_book_by(
    work: Way,
    book: &[u8],
    owners: &mut [u8],
    prices: &mut [u32],
    scratch: &mut [u8],
) -> BookShareOut {
    let bodies = match sheets_of(book) {
        Ok(bodies) => bodies,
        Err(number) => return BookShareOut::Refused(number),
    };
    let shortest = owners.len().min(prices.len());
    if shortest < BOOK_ENTRIES || scratch.len() < MIN_SCRATCH {
        return BookShareOut::Refused(refusal::LENT);
    }
    let mut sheets = Vec::with_capacity(bodies.len());
    let mut total = Tally::default();
    let mut first = 0;
    for body in bodies {
        let (owners, prices) = (&mut owners[first..], &mut prices[first..]);
        match allocate_by(work, body, owners, prices, scratch) {
            ShareOut::Refused(number) => sheets.push(SheetShareOut::Refused(number)),
            ShareOut::Shared { moves, cuts } => {
                sheets.push(SheetShareOut::Shared { moves, cuts, first });
                total.add(moves, cuts);
                first += chores_of(body);
            }
        }
    }
    // Also where every sheet was refused.
    scratch.fill(0);
    BookShareOut::Shared { sheets, total }
}

/// The chores of a sheet; 0 for a refused one, which takes no entries.
pub fn chores_of(sheet: &[u8]) -> usize {
    Sheet::parse(sheet).map_or(0, |sheet| sheet.chores)
}
