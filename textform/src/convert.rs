//! A book of old sheets as one of packed sheets.

use crate::instance::Instance;
use crate::{book, old_sheet, packed};

/// The same book with its sheets packed, or why it cannot be rewritten. What was
/// an old sheet has at most 807 bytes when packed, so 16 of them fit a book.
pub fn rewrite(old: &[u8]) -> Result<Vec<u8>, String> {
    let bodies = book::bodies(old).map_err(|reason| format!("this is no book: {reason}"))?;
    let instances = bodies.into_iter().zip(1..).map(|(body, number)| {
        read(body).map_err(|reason| format!("sheet {number} is no old sheet: {reason}"))
    });
    Ok(book::compose(&instances.collect::<Result<Vec<_>, _>>()?))
}

fn read(body: &[u8]) -> Result<Instance, String> {
    old_sheet::read(body).map_err(|reason| match packed::is_sheet(body) {
        true => "it is packed already".to_string(),
        false => reason,
    })
}
