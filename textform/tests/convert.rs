//! Books of old sheets as books of packed ones.

mod common;

use common::{bodies, book, book_of, old_sheet, unpack, Letters, FESTIVAL, SHEET_C};
use textform::convert::rewrite;

/// Rows of marks without an order to them.
fn mixed(agents: usize, chores: usize) -> Letters {
    let mut state = 1 + agents as u32 * 1000 + chores as u32;
    let mut letter = |_| {
        state = state.wrapping_mul(1_664_525).wrapping_add(1_013_904_223);
        ['e', 'd'][(state >> 31) as usize]
    };
    let row = |_| (0..chores).map(&mut letter).collect();
    (1, 1000, (0..agents).map(row).collect())
}

/// Rewritten, the book of these sheets says the same.
fn assert_kept(sheets: &[Letters]) {
    let old: Vec<Vec<u8>> = sheets.iter().map(old_sheet).collect();
    let new = rewrite(&book_of(&old)).unwrap();
    let unpacked: Vec<Letters> = bodies(&new).into_iter().map(unpack).collect();
    assert_eq!(unpacked, sheets);
}

#[test]
fn sheet_c() {
    let rows = ["eeeee", "dddde"].map(String::from).to_vec();
    let old = book_of(&[old_sheet(&(1, 3, rows))]);
    assert_eq!(rewrite(&old).unwrap(), book(SHEET_C));
}

/// The stored book of old sheets is that of the festival.
#[test]
fn festival() {
    let old = include_bytes!("../../tests/books/old-sheets.book");
    assert_eq!(rewrite(old).unwrap(), book(FESTIVAL));
}

#[test]
fn every_number_of_people_and_of_reels() {
    for chores in 0..=200 {
        assert_kept(&[mixed(1 + chores % 32, chores)]);
    }
}

#[test]
fn marks_all_alike() {
    for (letter, chores) in [("e", 7), ("d", 7), ("d", 8), ("d", 9), ("d", 200)] {
        assert_kept(&[(1, 2, vec![letter.repeat(chores); 3])]);
    }
}

#[test]
fn weights() {
    for (easy, difficult) in [(1, 2), (1, 1000), (999, 1000), (255, 256), (256, 257)] {
        assert_kept(&[(easy, difficult, vec!["ed".to_string()])]);
    }
}

#[test]
fn sixteen_sheets() {
    let sheets: Vec<Letters> = (1..=16).map(|size| mixed(size, 12 * size)).collect();
    assert_kept(&sheets);
    // Of all books these grow the most, by a byte for each sheet.
    assert_kept(&vec![mixed(32, 0); 16]);
    assert_kept(&vec![mixed(32, 1); 16]);
}

#[test]
fn the_longest_book() {
    let mut sheets = vec![mixed(32, 200); 10];
    sheets.push(mixed(6, 200));
    sheets.extend(vec![mixed(1, 0); 4]);
    sheets.push(mixed(6, 29));
    let old: Vec<Vec<u8>> = sheets.iter().map(old_sheet).collect();
    assert_eq!(book_of(&old).len(), 65_535);
    assert_kept(&sheets);
}
