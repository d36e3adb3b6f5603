//! Sheets and books as bytes, out of rows of marks.

use crate::book::ENTRY_BYTES;
use crate::sheet::HEADER_BYTES;

/// A sheet of these rows, `e` for easy and `d` for difficult, whether or not it
/// breaks a rule. The number of chores is the first row's length.
pub fn sheet<R: AsRef<str>>(easy: u16, difficult: u16, rows: &[R]) -> Vec<u8> {
    let chores = rows.first().map_or(0, |row| row.as_ref().len());
    let mut bytes = header(rows.len(), chores, easy.into(), difficult.into()).to_vec();
    for row in rows {
        bytes.extend(packed(row.as_ref().bytes().map(is_difficult)));
    }
    bytes
}

fn is_difficult(mark: u8) -> bool {
    match mark {
        b'e' => false,
        b'd' => true,
        other => panic!("no mark: {other}"),
    }
}

/// One row, a bit for each mark, set where it is difficult.
pub fn packed(marks: impl Iterator<Item = bool>) -> Vec<u8> {
    let mut row = Vec::new();
    for (place, difficult) in marks.enumerate() {
        if place % 8 == 0 {
            row.push(0);
        }
        row[place / 8] |= u8::from(difficult) << (7 - place % 8);
    }
    row
}

/// The bytes of a sheet before its marks.
pub fn header(agents: usize, chores: usize, easy: u32, difficult: u32) -> [u8; HEADER_BYTES] {
    let [m, a, b] = [chores, easy as usize, difficult as usize].map(two_bytes);
    [byte(agents), m[0], m[1], a[0], a[1], b[0], b[1]]
}

/// A book of these bodies, with contents that keep the book's rule.
pub fn book<B: AsRef<[u8]>>(bodies: &[B]) -> Vec<u8> {
    let mut bytes = vec![byte(bodies.len())];
    let mut start = 1 + ENTRY_BYTES * bodies.len();
    for body in bodies {
        let length = body.as_ref().len();
        bytes.extend(two_bytes(start));
        bytes.extend(two_bytes(length));
        start += length;
    }
    for body in bodies {
        bytes.extend(body.as_ref());
    }
    bytes
}

fn byte(number: usize) -> u8 {
    u8::try_from(number).expect("the number fits a byte")
}

fn two_bytes(number: usize) -> [u8; 2] {
    let number = u16::try_from(number).expect("the number fits two bytes");
    number.to_be_bytes()
}
