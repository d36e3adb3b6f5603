//! Results of `shares` that do not fit the text, each with its line.

mod common;

use common::{assert_fault, names, plain_sheet, RESULT_OF_C, RUN_OF_C, SHEET_C};
use textform::lists::Lists;

/// The result of sheet C with one part changed.
fn assert_change(from: &str, to: &str, line: usize, part: &str) {
    assert!(RESULT_OF_C.contains(from));
    let result = RESULT_OF_C.replacen(from, to, 1);
    assert_fault(names(SHEET_C, &result).expect_err(to), line, part);
}

#[test]
fn first_line_of_a_sheet() {
    let form = "should be `sheet 1 moves M cuts C` or `sheet 1 refused R`";
    for line in [
        "sheet 2 moves 3 cuts 1",
        "sheet 1 moves 3",
        "sheet 1 moves 3 cuts 1 more",
        "sheet 1 moves x cuts 1",
        "sheet 1 moves 3 cuts -1",
        "sheet 1 moves 18446744073709551616 cuts 1",
        "sheet 1 refused",
        "sheet",
        "moves 3 cuts 1",
        "total moves 3 cuts 1",
    ] {
        assert_change("sheet 1 moves 3 cuts 1", line, 1, form);
    }
}

#[test]
fn owners() {
    let all = "owners 2 2 1 1 2";
    assert_change(all, "owners 2 2 1 1", 2, "5 in all, but has 4");
    assert_change(all, "owners 2 2 1 1 2 1", 2, "5 in all, but has 6");
    assert_change(all, "owners", 2, "5 in all, but has 0");
    assert_change(all, "prices 2 2 1 1 2", 2, "should be `owners`");
    assert_change(
        all,
        "owners 2 2 3 1 2",
        2,
        "`3` for reel 3 is not the number of a person, 1 to 2",
    );
    assert_change(all, "owners 0 2 1 1 2", 2, "`0` for reel 1");
    assert_change(all, "owners 2 2 1 1 Boris", 2, "`Boris` for reel 5");
    assert_change(all, "owners 2 +2 1 1 2", 2, "`+2` for reel 2");
}

#[test]
fn prices() {
    let all = "prices 3 3 3 3 1";
    assert_change(all, "prices 3 3 3 3", 3, "5 in all, but has 4");
    assert_change(all, "owners 3 3 3 3 1", 3, "should be `prices`");
    assert_change(all, "prices 3 3 3 3 0", 3, "`0` for reel 5 is not a price");
    assert_change(
        all,
        "prices 3 4294967296 3 3 1",
        3,
        "`4294967296` for reel 2",
    );
}

#[test]
fn totals() {
    let total = "total moves 3 cuts 1";
    let sum = "should be `total moves 3 cuts 1`, the sum";
    assert_change(total, "total moves 4 cuts 1", 4, sum);
    assert_change(total, "total moves 3 cuts 0", 4, sum);
    assert_change(total, "total moves x cuts 1", 4, sum);
    assert_change(total, "total 3 1", 4, "should be `total moves M cuts C`");
    assert_change(total, "sheet 2 refused 4", 4, "no further sheet");
}

#[test]
fn a_result_of_another_length() {
    let two = plain_sheet(1, 0).repeat(2);
    let one = "sheet 1 moves 0 cuts 0\nowners\nprices\n";
    let early = |result: &str| names(&two, result).unwrap_err();
    assert_fault(early(""), 1, "ends too early");
    assert_fault(early("\n\n"), 1, "ends too early");
    assert_fault(
        early("sheet 1 moves 0 cuts 0\n"),
        2,
        "here should be `owners`",
    );
    assert_fault(
        early("sheet 1 moves 0 cuts 0\nowners\n"),
        3,
        "here should be `prices`",
    );
    assert_fault(early(one), 4, "here should be `sheet 2");
    let total = one.to_string() + "total moves 0 cuts 0\n";
    assert_fault(early(&total), 4, "this should be `sheet 2");
    let no_total = one.to_string() + "\nsheet 2 refused 1\n";
    assert_fault(early(&no_total), 6, "here should be `total");
    let longer = no_total + "total moves 0 cuts 0\n\nmore\n";
    assert_fault(early(&longer), 8, "should end before this");
}

#[test]
fn a_result_of_why() {
    let fault = names(SHEET_C, RUN_OF_C).unwrap_err();
    let part = "should be `owners` with one number per reel, 5 in all; \
                what `why` prints is read by `textform why`";
    assert_fault(fault, 2, part);
}

#[test]
fn refusals() {
    let fault = |result: &str| names(SHEET_C, result).expect_err(result);
    for number in ["0", "6", "7", "9", "10", "11", "x"] {
        let result = format!("sheet 1 refused {number}\ntotal moves 0 cuts 0\n");
        assert_fault(fault(&result), 1, "no sheet is refused with");
    }
    for number in ["0", "1", "7", "10", "999", "x"] {
        let result = format!("\nbook refused {number}\n");
        assert_fault(fault(&result), 2, "no book is refused with");
    }
    assert_fault(fault("book\n"), 1, "should be `book refused R`");
    let more = "book refused 9\ntotal moves 0 cuts 0\n";
    assert_fault(fault(more), 2, "should end before this");
}

#[test]
fn bytes_that_are_no_text() {
    let sheets = common::sheets(SHEET_C);
    let bytes = b"sheet 1 refused 4\n\xff\n";
    let fault = textform::result::read::<Lists>(bytes, &sheets).unwrap_err();
    assert_fault(fault, 2, "not UTF-8");
}
