//! The bytes of books.

mod common;

use common::{bodies, book, plain_sheet, unpack, FESTIVAL, SHEET_C};

/// The body of a book of one sheet with weights 1 and 3 and these rows.
fn body(chores: usize, rows: &[&str]) -> Vec<u8> {
    let mut text = "sheet\nweights 1 3\n".to_string();
    for chore in 1..=chores {
        text += &format!("reel R{chore}\n");
    }
    for (row, agent) in rows.iter().zip(1..) {
        text += &format!("person P{agent}: {row}\n");
    }
    bodies(&book(&text))[0].to_vec()
}

#[test]
fn sheet_c() {
    let expected = b"\x01\x00\x05\x00\x09\x02\x00\x05\x00\x01\x00\x03\x00\xf0";
    assert_eq!(book(SHEET_C), expected);
}

#[test]
fn examples() {
    assert_eq!(book(SHEET_C), include_bytes!("../../examples/sheet-c.book"));
    assert_eq!(
        book(FESTIVAL),
        include_bytes!("../../examples/festival.book")
    );
}

#[test]
fn festival() {
    let book = book(FESTIVAL);
    let bodies = bodies(&book);
    let (easy, difficult, rows) = unpack(bodies[2]);
    assert_eq!((easy, difficult), (2, 5));
    assert_eq!(rows.len(), 7);
    assert_eq!(rows[1], "eeddeeddeedd");
    assert_eq!(unpack(bodies[1]).2[2], "ddddddddddddddeeeddd");
}

#[test]
fn weights_of_two_bytes() {
    let book = book("sheet\nweights 258 1000\nperson Ada:\n");
    assert_eq!(bodies(&book), [[1, 0, 0, 1, 2, 3, 232]]);
}

#[test]
fn sixteen_sheets() {
    let text: String = (1..=16).map(|size| plain_sheet(size, 250 * size)).collect();
    let book = book(&text);
    let bodies = bodies(&book);
    assert_eq!(bodies.len(), 16);
    for (body, size) in bodies.iter().zip(1..) {
        let rows = vec!["e".repeat(250 * size); size];
        assert_eq!(unpack(body), (1, 3, rows));
    }
}

#[test]
fn marks_in_order_high_bit_first() {
    assert_eq!(body(2, &["E d", "De"])[7..], [0b0100_0000, 0b1000_0000]);
    assert_eq!(body(8, &["eddeeede"])[7..], [0b0110_0010]);
}

#[test]
fn a_row_starts_on_a_fresh_byte() {
    let rows = ["eeeeeeeed", "dddddddde"];
    assert_eq!(body(9, &rows)[7..], [0x00, 0x80, 0xff, 0x00]);
    assert_eq!(body(1, &["d", "e", "d"])[7..], [0x80, 0x00, 0x80]);
    assert_eq!(body(0, &["", ""]), [2, 0, 0, 0, 1, 0, 3]);
}

/// The bit of each mark of each number of chores.
#[test]
fn one_difficult_mark() {
    for chores in 1..=25 {
        for chore in 0..chores {
            let row = "e".repeat(chore) + "d" + &"e".repeat(chores - chore - 1);
            let mut bytes = vec![0; chores.div_ceil(8)];
            bytes[chore / 8] = 128 >> (chore % 8);
            assert_eq!(body(chores, &[&row])[7..], bytes, "{row}");
        }
    }
}

#[test]
fn four_thousand_reels() {
    let row = "e".repeat(3999) + "d";
    let body = body(4000, &[&row, &"d".repeat(4000)]);
    assert_eq!(body[..7], [2, 0x0f, 0xa0, 0, 1, 0, 3]);
    assert_eq!(body[7..507], [vec![0; 499], vec![1]].concat());
    assert_eq!(body[507..], [255; 500]);
}
