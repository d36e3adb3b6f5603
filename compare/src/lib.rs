//! The proved library by its C interface, as safe calls on slices, and the
//! plain C program likewise; the second program's checks beside them. Answers
//! that C gets through pointers stay lent here, so that a comparison sees what a
//! refusal does to them.

pub mod books;
pub mod bound;
mod c;
pub mod comparisons;
pub mod damage;
mod digest;
pub mod header;
pub mod lent;
mod library;
pub mod lists;
pub mod random;
pub mod shapes;
pub mod sizes;
pub mod soak;
pub mod strands;

pub use library::{Checks, Library, Second, PLAIN, PROVED};
use strands::Pair;

/// Entries of each list that tells what became of a book's sheets.
pub const BOOK_SHEETS: usize = 16;

/// Where the share-out of a book tells of its sheets.
#[derive(Debug)]
pub struct BookAnswers<'a> {
    pub refusals: &'a mut [u8; BOOK_SHEETS],
    pub moves: &'a mut [u64; BOOK_SHEETS],
    pub cuts: &'a mut [u8; BOOK_SHEETS],
    pub firsts: &'a mut [u32; BOOK_SHEETS],
    /// The moves and the cuts of all accepted sheets.
    pub tally: &'a mut [u64; 2],
}

/// 0 or the refusal number. The record gets six bytes for each move.
pub fn allocate_recorded(
    sheet: &[u8],
    owners: &mut [u8],
    prices: &mut [u8],
    scratch: &mut [u8],
    record: &mut [u8],
    moves: &mut u64,
    cuts: &mut u8,
) -> u8 {
    // SAFETY: as in `Library::allocate`.
    unsafe {
        c::shares_allocate_recorded(
            sheet.as_ptr(),
            sheet.len(),
            owners.as_mut_ptr(),
            owners.len(),
            prices.as_mut_ptr(),
            prices.len(),
            scratch.as_mut_ptr(),
            scratch.len(),
            record.as_mut_ptr(),
            record.len(),
            moves,
            cuts,
        )
    }
}

/// 0 or the refusal number; the bytes of the agent's row are that part of the
/// strand's sheet.
pub fn show_marks(
    pair: &Pair,
    agent: usize,
    chore: usize,
    strand: &mut u8,
    start: &mut usize,
    size: &mut usize,
) -> u8 {
    let Pair { first, second } = pair;
    // SAFETY: as in `Library::allocate`.
    unsafe {
        c::shares_show_marks(
            first.as_ptr(),
            first.len(),
            second.as_ptr(),
            second.len(),
            agent,
            chore,
            strand,
            start,
            size,
        )
    }
}

/// 0 or the refusal number. The first m entries get the owners.
pub fn measured_list(sheet: &[u8], owners: &mut [u8]) -> u8 {
    // SAFETY: as in `Library::allocate`.
    unsafe {
        c::shares_measured_list(
            sheet.as_ptr(),
            sheet.len(),
            owners.as_mut_ptr(),
            owners.len(),
        )
    }
}

/// 0 or the refusal number; the stretch of the book is told by start and size.
pub fn find_sheet(book: &[u8], sheet_number: usize, start: &mut usize, size: &mut usize) -> u8 {
    // SAFETY: as in `Library::allocate`.
    unsafe { c::shares_find_sheet(book.as_ptr(), book.len(), sheet_number, start, size) }
}

/// 0 or the book's refusal number.
pub fn allocate_book(
    book: &[u8],
    owners: &mut [u8],
    prices: &mut [u8],
    scratch: &mut [u8],
    answers: BookAnswers,
) -> u8 {
    // SAFETY: as in `Library::allocate`; each list of answers has an entry for each of 16 sheets.
    unsafe {
        c::shares_allocate_book(
            book.as_ptr(),
            book.len(),
            owners.as_mut_ptr(),
            owners.len(),
            prices.as_mut_ptr(),
            prices.len(),
            scratch.as_mut_ptr(),
            scratch.len(),
            answers.refusals.as_mut_ptr(),
            answers.moves.as_mut_ptr(),
            answers.cuts.as_mut_ptr(),
            answers.firsts.as_mut_ptr(),
            answers.tally.as_mut_ptr(),
        )
    }
}
