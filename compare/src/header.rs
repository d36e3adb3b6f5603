//! What the header of a sheet says, whether or not it breaks a rule; 0 where it
//! is cut short.

use reference::sheet::row_bytes;

pub fn agents(sheet: &[u8]) -> usize {
    sheet.first().copied().map_or(0, usize::from)
}

pub fn chores(sheet: &[u8]) -> usize {
    two_bytes(sheet, 1)
}

/// The easy and the difficult weight.
pub fn weights(sheet: &[u8]) -> [usize; 2] {
    [3, 5].map(|at| two_bytes(sheet, at))
}

fn two_bytes(sheet: &[u8], at: usize) -> usize {
    let number = |bytes: &[u8]| 256 * usize::from(bytes[0]) + usize::from(bytes[1]);
    sheet.get(at..at + 2).map_or(0, number)
}

/// Bytes of each agent's marks.
pub fn row(sheet: &[u8]) -> usize {
    row_bytes(chores(sheet))
}
