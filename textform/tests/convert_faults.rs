//! Books that cannot be rewritten, each with the reason.

mod common;

use common::{book, book_of, old_sheet, plain_sheet, FESTIVAL, SHEET_C};
use textform::convert::rewrite;

/// Sheet B as it was, and sheet C.
fn b() -> Vec<u8> {
    old_sheet(&(1, 3, ["eeee", "dddd"].map(String::from).to_vec()))
}

fn c() -> Vec<u8> {
    old_sheet(&(1, 3, ["eeeee", "dddde"].map(String::from).to_vec()))
}

fn assert_no_book(book: &[u8], reason: &str) {
    let told = rewrite(book).expect_err(reason);
    assert_eq!(told, format!("this is no book: {reason}"));
}

/// The second of three sheets is at fault.
fn assert_no_sheet(sheet: Vec<u8>, reason: &str) {
    let told = rewrite(&book_of(&[b(), sheet, c()])).expect_err(reason);
    assert_eq!(told, format!("sheet 2 is no old sheet: {reason}"));
}

#[test]
fn length_of_a_book() {
    assert_no_book(&[], "it is empty");
    let longest = book_of(&[vec![0; 65_530]]);
    let told = rewrite(&longest).unwrap_err();
    assert!(told.starts_with("sheet 1 is no old sheet"), "{told}");
    let longer = [longest, vec![0]].concat();
    assert_no_book(&longer, "it is over 65535 bytes");
}

#[test]
fn number_of_sheets() {
    assert_no_book(&[0], "its number of sheets is 0, not 1 to 16");
    let seventeen = book_of(&vec![b(); 17]);
    assert_no_book(&seventeen, "its number of sheets is 17, not 1 to 16");
    let text = FESTIVAL.as_bytes();
    assert_no_book(text, "its number of sheets is 35, not 1 to 16");
}

#[test]
fn contents() {
    let book = book_of(&[b(), c()]);
    let with = |place: usize, byte: u8| {
        let mut changed = book.clone();
        changed[place] = byte;
        changed
    };
    assert_no_book(&with(2, 10), "sheet 1 starts at byte 10, not at 9");
    assert_no_book(&with(2, 8), "sheet 1 starts at byte 8, not at 9");
    assert_no_book(&with(4, 13), "sheet 2 starts at byte 23, not at 22");
    assert_no_book(&with(6, 24), "sheet 2 starts at byte 24, not at 23");
    assert_no_book(
        &with(8, 17),
        "sheet 2 ends at byte 40, after the book's end",
    );
    assert_no_book(
        &with(7, 255),
        "sheet 2 ends at byte 65319, after the book's end",
    );
    assert_no_book(
        &with(8, 15),
        "its last sheet ends at byte 38, before the book's end",
    );
    let longer = [&book[..], b"e"].concat();
    assert_no_book(
        &longer,
        "its last sheet ends at byte 39, before the book's end",
    );
}

#[test]
fn a_book_cut_short() {
    let book = book_of(&[b(), c()]);
    for length in 1..9 {
        assert_no_book(&book[..length], "it ends within its contents");
    }
    for length in 9..23 {
        let reason = "sheet 1 ends at byte 23, after the book's end";
        assert_no_book(&book[..length], reason);
    }
    for length in 23..39 {
        let reason = "sheet 2 ends at byte 39, after the book's end";
        assert_no_book(&book[..length], reason);
    }
}

/// Sheet C with one byte changed.
fn with(place: usize, byte: u8) -> Vec<u8> {
    let mut sheet = c();
    sheet[place] = byte;
    sheet
}

#[test]
fn header() {
    for length in 0..6 {
        let reason = format!("its length is {length}, below the 6 of a header");
        assert_no_sheet(c()[..length].to_vec(), &reason);
    }
    for people in [0, 33, 255] {
        let reason = format!("its number of people is {people}, not 1 to 32");
        assert_no_sheet(with(0, people), &reason);
    }
    for reels in [201, 255] {
        let reason = format!("its number of reels is {reels}, above 200");
        assert_no_sheet(with(1, reels), &reason);
    }
    for (easy, difficult) in [(0, 3), (3, 3), (3, 2), (1, 1001), (256, 255), (65_535, 1)] {
        let rows = vec!["ed".to_string(); 2];
        let reason =
            format!("its weights are {easy} and {difficult}, not 1 <= easy < difficult <= 1000");
        assert_no_sheet(old_sheet(&(easy, difficult, rows)), &reason);
    }
}

#[test]
fn length_of_a_sheet() {
    assert_no_sheet(c()[..15].to_vec(), "its length is 15, not 6 + 2 * 5");
    assert_no_sheet(c()[..6].to_vec(), "its length is 6, not 6 + 2 * 5");
    let longer = [c(), vec![b'e']].concat();
    assert_no_sheet(longer, "its length is 17, not 6 + 2 * 5");
    assert_no_sheet(with(0, 32), "its length is 16, not 6 + 32 * 5");
    assert_no_sheet(with(1, 0), "its length is 16, not 6 + 2 * 0");
    assert_no_sheet(with(1, 200), "its length is 16, not 6 + 2 * 200");
}

#[test]
fn marks() {
    for (mark, letter) in (0..10).zip("abcxyzEDFf".bytes()) {
        let (person, reel) = (mark / 5 + 1, mark % 5 + 1);
        let reason = format!(
            "mark {reel} of person {person} is hexadecimal {letter:02x}, \
             neither 65 (e) nor 64 (d)"
        );
        assert_no_sheet(with(6 + mark, letter), &reason);
    }
    let reason = "mark 3 of person 1 is hexadecimal 0a, neither 65 (e) nor 64 (d)";
    assert_no_sheet(with(8, b'\n'), reason);
    for byte in (0..=255).filter(|byte| !b"ed".contains(byte)) {
        assert!(rewrite(&book_of(&[with(15, byte)])).is_err(), "{byte}");
    }
}

/// Each sheet keeps one rule more than the one before it.
#[test]
fn the_first_rule_that_is_broken() {
    for (sheet, part) in [
        (&b"\x00\xc9\x00\x00\x00"[..], "below the 6"),
        (b"\x00\xc9\x00\x00\x00\x00x", "number of people"),
        (b"\x02\xc9\x00\x00\x00\x00x", "number of reels"),
        (b"\x02\x01\x00\x00\x00\x00x", "weights"),
        (b"\x02\x01\x00\x01\x00\x02x", "its length is 7"),
        (b"\x02\x01\x00\x01\x00\x02xy", "mark 1 of person 1"),
        (b"\x02\x01\x00\x01\x00\x02ey", "mark 1 of person 2"),
    ] {
        let told = rewrite(&book_of(&[sheet.to_vec()])).expect_err(part);
        assert!(told.contains(part), "{told}");
    }
}

#[test]
fn the_first_sheet_at_fault() {
    let told = rewrite(&book_of(&[c(), c(), vec![], with(0, 0)])).unwrap_err();
    assert!(told.starts_with("sheet 3 is"), "{told}");
}

/// A book is rewritten once.
#[test]
fn packed_already() {
    let reason = "sheet 1 is no old sheet: it is packed already";
    for text in [SHEET_C, FESTIVAL] {
        assert_eq!(rewrite(&book(text)).unwrap_err(), reason);
    }
    for chores in (0..300).chain(3990..=4000) {
        for agents in [1, 32] {
            let book = book(&plain_sheet(agents, chores));
            assert_eq!(rewrite(&book).unwrap_err(), reason, "{agents} x {chores}");
        }
    }
}

/// As long as a packed sheet would be, and no packed sheet either.
#[test]
fn not_packed() {
    let no_people = b"\x00\x00\x00\x00\x01\x00\x03".to_vec();
    assert_no_sheet(no_people, "its number of people is 0, not 1 to 32");
    let many_reels = [&b"\x01\x0f\xa1\x00\x01\x00\x03"[..], &[0; 501]].concat();
    let weights = "its weights are 41216 and 256, not 1 <= easy < difficult <= 1000";
    assert_no_sheet(many_reels, weights);
}
