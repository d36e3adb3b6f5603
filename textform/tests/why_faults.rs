//! Results of `why` that do not fit the text, each with its line.

mod common;

use common::{assert_fault, plain_sheet, why, RESULT_OF_C, RUN_OF_C, SHEET_C};

/// The result of sheet C with one part changed.
fn assert_change(from: &str, to: &str, line: usize, part: &str) {
    assert!(RUN_OF_C.contains(from));
    let result = RUN_OF_C.replacen(from, to, 1);
    assert_fault(why(SHEET_C, &result).expect_err(to), line, part);
}

#[test]
fn first_and_last_line() {
    let first = "sheet 1 moves 3 cuts 1";
    let form = "should be `sheet 1 moves M cuts C` or `sheet 1 refused R`";
    assert_change(first, "sheet 2 moves 3 cuts 1", 1, form);
    assert_change(first, "opening 1 1 1 1 1", 1, form);
    let total = "total moves 3 cuts 1";
    assert_change(total, "total moves 4 cuts 1", 8, "the sum of the sheets");
    assert_change(total, "sheet 2 refused 11", 8, "no further sheet");
}

#[test]
fn opening() {
    let all = "opening 1 1 1 1 1";
    assert_change(all, "opening 1 1 1 1", 2, "5 in all, but has 4");
    assert_change(all, "opening 1 1 1 1 1 1", 2, "5 in all, but has 6");
    assert_change(all, "owners 1 1 1 1 1", 2, "should be `opening`");
    let range = "`3` for reel 4 is not the number of a person, 1 to 2";
    assert_change(all, "opening 1 1 1 3 1", 2, range);
    assert_change(all, "opening 0 1 1 1 1", 2, "`0` for reel 1");
    let fault = why(SHEET_C, RESULT_OF_C).unwrap_err();
    let part = "should be `opening` with one number per reel, 5 in all; \
                what `shares` prints is read by `textform names`";
    assert_fault(fault, 2, part);
}

#[test]
fn lines_out_of_order() {
    let (opening, first) = ("opening 1 1 1 1 1\n", "reel 5 from 1 to 2 round 1 step 2\n");
    let swapped = first.to_string() + opening;
    assert_change(&(opening.to_string() + first), &swapped, 2, "`opening`");
    let (owners, prices) = ("owners 2 2 1 1 2\n", "prices 3 3 3 3 1\n");
    let swapped = prices.to_string() + owners;
    assert_change(&(owners.to_string() + prices), &swapped, 6, "`owners`");
}

#[test]
fn form_of_a_move() {
    let form = "should be `reel R from P to Q round K step S`, move 1 of 3";
    for line in [
        "reel 5 from 1 to 2 round 1",
        "reel 5 from 1 to 2 round 1 step 2 more",
        "reel 5 to 2 from 1 round 1 step 2",
        "5 1 2 1 2",
        "reel",
        "owners 2 2 1 1 2",
    ] {
        assert_change("reel 5 from 1 to 2 round 1 step 2", line, 3, form);
    }
}

#[test]
fn numbers_of_a_move() {
    for (from, to, part) in [
        (
            "reel 5",
            "reel 6",
            "`6` is not the number of a reel, 1 to 5",
        ),
        ("reel 5", "reel 0", "`0` is not the number of a reel"),
        ("reel 5", "reel +5", "`+5` is not the number of a reel"),
        (
            "from 1",
            "from 3",
            "`3` is not the number of a person, 1 to 2",
        ),
        ("from 1", "from Ada", "`Ada` is not the number of a person"),
        ("to 2", "to 0", "`0` is not the number of a person"),
        ("to 2", "to 3", "`3` is not the number of a person"),
        (
            "round 1",
            "round 0",
            "`0` is not the number of a round, 1 to 2",
        ),
        ("round 1", "round 3", "`3` is not the number of a round"),
        (
            "step 2",
            "step 0",
            "`0` is not the number of a step, 1 to 2",
        ),
        ("step 2", "step 3", "`3` is not the number of a step"),
        ("step 2", "step 2b", "`2b` is not the number of a step"),
    ] {
        let first = "reel 5 from 1 to 2 round 1 step 2";
        assert_change(first, &first.replacen(from, to, 1), 3, part);
    }
}

#[test]
fn a_giver_without_the_reel() {
    assert_change(
        "reel 5 from 1 to 2",
        "reel 5 from 2 to 1",
        3,
        "reel 5 is with person 1 at this point, not with person 2",
    );
    // Handed over before.
    assert_change(
        "reel 1 from 1 to 2",
        "reel 5 from 1 to 2",
        4,
        "reel 5 is with person 2 at this point, not with person 1",
    );
}

#[test]
fn a_giver_who_is_the_receiver() {
    let part = "reel 2 goes from person 1 to the same person";
    assert_change("reel 2 from 1 to 2", "reel 2 from 1 to 1", 5, part);
}

#[test]
fn a_round_that_falls() {
    let part = "round 1 after round 2";
    assert_change(
        "2 round 2 step 2\nowners",
        "2 round 1 step 2\nowners",
        5,
        part,
    );
}

#[test]
fn another_number_of_moves() {
    let second = "reel 1 from 1 to 2 round 2 step 2\n";
    let form = "should be `reel R from P to Q round K step S`, move 3 of 3";
    assert_change(second, "", 5, form);
    let back = "reel 1 from 2 to 1 round 2 step 2\nowners";
    assert_change(
        "owners",
        back,
        6,
        "should be `owners`, as the sheet has no further move",
    );
    let huge = "sheet 1 moves 18446744073709551615 cuts 18446744073709551615";
    assert_change(
        "sheet 1 moves 3 cuts 1",
        huge,
        6,
        "move 4 of 18446744073709551615",
    );
}

#[test]
fn moves_without_reels() {
    let result = "sheet 1 moves 1 cuts 0\nopening\nreel 1 from 1 to 2 round 1 step 2\n";
    let fault = why(&plain_sheet(2, 0), result).unwrap_err();
    assert_fault(
        fault,
        3,
        "`1` is not the number of a reel, as there is none",
    );
}

#[test]
fn owners_that_the_moves_do_not_give() {
    let part = "`2` for reel 3 should be `1`, by the opening and the moves";
    assert_change("owners 2 2 1 1 2", "owners 2 2 2 1 2", 6, part);
    let part = "`2` for reel 4 should be `1`";
    assert_change(
        "owners 2 2 1 1 2\nprices",
        "owners 2 2 1 2 2\nowners",
        6,
        part,
    );
    let part = "`1` for reel 3 should be `2`";
    assert_change("opening 1 1 1", "opening 1 1 2", 6, part);
}

#[test]
fn an_early_end() {
    let lines: Vec<&str> = RUN_OF_C.lines().collect();
    let ends = ["`sheet 1", "`opening`", "`reel R", "`reel R", "`reel R"];
    let ends = ends.iter().chain(&["`owners`", "`prices`", "`total"]);
    for (form, count) in ends.zip(0..) {
        let fault = why(SHEET_C, &lines[..count].join("\n")).unwrap_err();
        assert_fault(fault, count + 1, &format!("here should be {form}"));
    }
    let more = RUN_OF_C.to_string() + "more\n";
    assert_fault(
        why(SHEET_C, &more).unwrap_err(),
        9,
        "should end before this",
    );
}

#[test]
fn refusals() {
    for number in ["0", "6", "7", "9", "10", "12", "x"] {
        let result = format!("sheet 1 refused {number}\ntotal moves 0 cuts 0\n");
        let fault = why(SHEET_C, &result).expect_err(number);
        assert_fault(fault, 1, "no sheet is refused with");
    }
    let fault = why(SHEET_C, "book refused 11\n").unwrap_err();
    assert_fault(fault, 1, "no book is refused with `11`");
}
