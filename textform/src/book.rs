//! The bytes of a book: contents, then the bodies of its sheets.

use crate::bytes::{byte, number_at, two_bytes};
use crate::instance::Instance;
use crate::lines::Fault;
use crate::packed;
use crate::sheet::{Sheet, MAX_BOOK_BYTES, MAX_SHEETS};

const ENTRY_BYTES: usize = 4;

/// The book of these instances, which must be within the limits.
pub fn compose(instances: &[Instance]) -> Vec<u8> {
    let bodies: Vec<Vec<u8>> = instances.iter().map(packed::sheet).collect();
    let mut book = vec![byte(bodies.len())];
    let mut start = contents_length(bodies.len());
    for body in &bodies {
        book.extend(two_bytes(start));
        book.extend(two_bytes(body.len()));
        start += body.len();
    }
    book.extend(bodies.concat());
    book
}

/// The bodies of a book, or why these bytes are none.
pub fn bodies(book: &[u8]) -> Result<Vec<&[u8]>, String> {
    let count = sheet_count(book)?;
    let mut end = contents_length(count);
    let contents = book.get(1..end).ok_or("it ends within its contents")?;
    let mut bodies = Vec::with_capacity(count);
    for (entry, number) in contents.chunks(ENTRY_BYTES).zip(1..) {
        let start = usize::from(number_at(entry, 0));
        if start != end {
            return Err(format!(
                "sheet {number} starts at byte {start}, not at {end}"
            ));
        }
        end += usize::from(number_at(entry, 2));
        let beyond = || format!("sheet {number} ends at byte {end}, after the book's end");
        bodies.push(book.get(start..end).ok_or_else(beyond)?);
    }
    if end < book.len() {
        return Err(format!(
            "its last sheet ends at byte {end}, before the book's end"
        ));
    }
    Ok(bodies)
}

fn sheet_count(book: &[u8]) -> Result<usize, String> {
    if book.len() > MAX_BOOK_BYTES {
        return Err(format!("it is over {MAX_BOOK_BYTES} bytes"));
    }
    let count = usize::from(*book.first().ok_or("it is empty")?);
    if (1..=MAX_SHEETS).contains(&count) {
        Ok(count)
    } else {
        Err(format!(
            "its number of sheets is {count}, not 1 to {MAX_SHEETS}"
        ))
    }
}

/// A fault at the first sheet that a book has no room for.
pub fn check_length(sheets: &[Sheet]) -> Result<(), Fault> {
    let mut end = contents_length(sheets.len());
    for sheet in sheets {
        end += packed::length(sheet.agents.len(), sheet.chores.len());
        if end > MAX_BOOK_BYTES {
            let reason = format!("with this sheet the book is over {MAX_BOOK_BYTES} bytes");
            return Err(Fault::new(sheet.line, reason));
        }
    }
    Ok(())
}

fn contents_length(sheets: usize) -> usize {
    1 + ENTRY_BYTES * sheets
}
