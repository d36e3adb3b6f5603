//! Results with names.

mod common;

use common::{names, plain_sheet, FESTIVAL, NAMES_OF_C, RESULT_OF_C, SHEET_C};

/// What `shares` prints for the book of the festival.
const RESULT_OF_FESTIVAL: &str = "\
sheet 1 moves 3 cuts 0
owners 3 5 3 2 2 1 4 4 1
prices 3 3 3 3 3 3 3 3 3
sheet 2 moves 12 cuts 3
owners 2 4 5 3 5 4 2 3 1 1 1 2 2 2 3 3 3 4 4 5
prices 3 3 3 3 3 3 3 3 3 3 3 1 1 1 1 1 1 1 1 1
sheet 3 moves 5 cuts 0
owners 7 5 3 6 5 2 1 3 4 2 1 4
prices 10 10 10 10 10 10 10 10 10 10 10 10
sheet 4 moves 6 cuts 1
owners 3 4 1 3 2 5 1 6
prices 1 1 4 4 4 1 1 1
total moves 26 cuts 4
";

#[test]
fn sheet_c() {
    assert_eq!(names(SHEET_C, RESULT_OF_C).unwrap(), NAMES_OF_C);
}

#[test]
fn blank_lines_and_line_ends_do_not_matter() {
    let loose = RESULT_OF_C.replace('\n', " \r\n\r\n");
    assert_eq!(names(SHEET_C, &loose).unwrap(), NAMES_OF_C);
}

#[test]
fn festival() {
    let print = names(FESTIVAL, RESULT_OF_FESTIVAL).unwrap();
    let blocks: Vec<&str> = print.split("\n\n").collect();
    assert_eq!(blocks.len(), 5);
    assert!(blocks[1].starts_with("Sheet 2: World panorama\n  Chloé Martin: 3 reels, price 9\n"));
    assert!(blocks[1].contains("\n    우산, reel 1 (easy, price 1)\n"));
    assert!(blocks[1].ends_with("\n  12 moves, 3 price cuts"));
    assert!(
        blocks[2].contains("\n  Goran: 1 reel, price 10\n    The Understudy (easy, price 10)\n")
    );
    assert_eq!(blocks[4], "Total: 26 moves, 4 price cuts\n");
    // Each reel once.
    assert_eq!(print.matches("\n    ").count(), 9 + 20 + 12 + 8);
}

#[test]
fn no_reels_and_no_title() {
    let text = "sheet\nweights 1 3\nperson Ada:\n";
    let result = "sheet 1 moves 0 cuts 0\nowners\nprices\ntotal moves 0 cuts 0\n";
    let print = "Sheet 1\n  Ada: no reels\n  0 moves, 0 price cuts\n\n\
                 Total: 0 moves, 0 price cuts\n";
    assert_eq!(names(text, result).unwrap(), print);
}

#[test]
fn somebody_without_reels() {
    let text = "sheet One\nweights 1 2\nreel A\nperson Ada Novak: e\nperson Zoë: e\n";
    let result = "sheet 1 moves 0 cuts 0\nowners 1\nprices 2\ntotal moves 0 cuts 0\n";
    let print = names(text, result).unwrap();
    assert!(print.contains("  Ada Novak: 1 reel, price 2\n    A (easy, price 2)\n"));
    assert!(print.contains("  Zoë: no reels\n"));
}

#[test]
fn refused_sheet() {
    let text = SHEET_C.to_string() + "\nsheet Late show\nweights 1 3\nperson Ada:\n";
    let result = RESULT_OF_C.replace("total", "sheet 2 refused 4\ntotal");
    let block = "\n\nSheet 2: Late show\n  Refused (4): a bit is set after the last reel of a row.\n\nTotal";
    let expected = NAMES_OF_C.replace("\n\nTotal", block);
    assert_eq!(names(&text, &result).unwrap(), expected);
}

#[test]
fn every_sheet_refused() {
    for (number, part) in [
        (1, "people"),
        (2, "4000 reels"),
        (3, "weights"),
        (4, "bit is set"),
        (5, "length"),
        (8, "memory"),
    ] {
        let result = format!("sheet 1 refused {number}\ntotal moves 0 cuts 0\n");
        let print = names(SHEET_C, &result).unwrap();
        let start = format!("Sheet 1: C\n  Refused ({number}): ");
        assert!(print.starts_with(&start) && print.contains(part), "{print}");
        assert!(print.ends_with(".\n\nTotal: 0 moves, 0 price cuts\n"));
    }
}

#[test]
fn refused_book() {
    for (number, part) in [(8, "memory"), (9, "contents")] {
        let print = names(FESTIVAL, &format!("book refused {number}\n")).unwrap();
        let start = format!("The book was refused ({number}): ");
        assert!(print.starts_with(&start) && print.contains(part), "{print}");
        assert_eq!(print.lines().count(), 1);
    }
}

#[test]
fn sixteen_sheets() {
    let mut result = String::new();
    for number in 1..=16 {
        result += &format!("sheet {number} moves {number} cuts 1\nowners 1 2\nprices 3 3\n");
    }
    result += "total moves 136 cuts 16\n";
    let print = names(&plain_sheet(2, 2).repeat(16), &result).unwrap();
    assert_eq!(
        print
            .matches("  P2: 1 reel, price 3\n    R2 (easy, price 3)\n")
            .count(),
        16
    );
    assert!(print.contains("\nSheet 16\n"));
    assert!(print.ends_with("  16 moves, 1 price cut\n\nTotal: 136 moves, 16 price cuts\n"));
}

#[test]
fn four_thousand_reels() {
    let owners: String = (0..4000)
        .map(|chore| format!(" {}", chore % 32 + 1))
        .collect();
    let prices: String = (1..=4000).map(|price| format!(" {price}")).collect();
    let result =
        format!("sheet 1 moves 0 cuts 0\nowners{owners}\nprices{prices}\ntotal moves 0 cuts 0\n");
    let print = names(&plain_sheet(32, 4000), &result).unwrap();
    // Each reel once.
    assert_eq!(print.matches("\n    R").count(), 4000);
    // 32, 64, ... 4000.
    assert!(print.contains("\n  P32: 125 reels, price 252000\n    R32 (easy, price 32)\n"));
    assert!(print.contains("\n    R4000 (easy, price 4000)\n  0 moves, 0 price cuts\n"));
}

#[test]
fn large_numbers() {
    let result = RESULT_OF_C.replace("3 3 3 3 1", "4294967295 4294967295 1 1 1");
    let print = names(SHEET_C, &result).unwrap();
    assert!(print.contains("  Boris: 3 reels, price 8589934591\n"));
}
