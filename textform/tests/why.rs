//! Results of `why` with names.

mod common;

use common::{names, plain_sheet, why, FESTIVAL, RUN_OF_C, SHEET_C, WHY_OF_C};

/// What `why` prints for the book of the festival.
const RUN_OF_FESTIVAL: &str = "\
sheet 1 moves 3 cuts 0
opening 1 1 1 2 2 1 4 4 1
reel 1 from 1 to 3 round 1 step 2
reel 2 from 1 to 5 round 1 step 2
reel 3 from 1 to 3 round 1 step 2
owners 3 5 3 2 2 1 4 4 1
prices 3 3 3 3 3 3 3 3 3
sheet 2 moves 12 cuts 3
opening 1 1 1 1 1 1 1 1 1 1 1 2 2 2 3 3 3 4 4 5
reel 1 from 1 to 5 round 2 step 2
reel 2 from 1 to 5 round 2 step 2
reel 1 from 5 to 4 round 3 step 1
reel 3 from 1 to 5 round 3 step 2
reel 4 from 1 to 4 round 3 step 2
reel 5 from 1 to 5 round 3 step 2
reel 6 from 1 to 4 round 3 step 2
reel 1 from 4 to 2 round 4 step 1
reel 4 from 4 to 3 round 4 step 1
reel 2 from 5 to 4 round 4 step 1
reel 7 from 1 to 2 round 4 step 2
reel 8 from 1 to 3 round 4 step 2
owners 2 4 5 3 5 4 2 3 1 1 1 2 2 2 3 3 3 4 4 5
prices 3 3 3 3 3 3 3 3 3 3 3 1 1 1 1 1 1 1 1 1
sheet 3 moves 5 cuts 0
opening 1 2 1 6 1 2 1 3 1 2 1 4
reel 5 from 1 to 5 round 1 step 2
reel 1 from 1 to 7 round 1 step 2
reel 3 from 1 to 3 round 1 step 2
reel 9 from 1 to 4 round 1 step 2
reel 2 from 2 to 5 round 1 step 2
owners 7 5 3 6 5 2 1 3 4 2 1 4
prices 10 10 10 10 10 10 10 10 10 10 10 10
sheet 4 moves 6 cuts 1
opening 2 2 2 2 2 1 1 1
reel 6 from 1 to 5 round 1 step 2
reel 8 from 1 to 6 round 1 step 2
reel 1 from 2 to 3 round 1 step 2
reel 2 from 2 to 4 round 1 step 2
reel 3 from 2 to 1 round 2 step 2
reel 4 from 2 to 3 round 2 step 2
owners 3 4 1 3 2 5 1 6
prices 1 1 4 4 4 1 1 1
total moves 26 cuts 4
";

#[test]
fn sheet_c() {
    assert_eq!(why(SHEET_C, RUN_OF_C).unwrap(), WHY_OF_C);
}

#[test]
fn blank_lines_and_line_ends_do_not_matter() {
    let loose = RUN_OF_C.replace('\n', " \r\n\r\n");
    assert_eq!(why(SHEET_C, &loose).unwrap(), WHY_OF_C);
}

#[test]
fn festival() {
    let print = why(FESTIVAL, RUN_OF_FESTIVAL).unwrap();
    let blocks: Vec<&str> = print.split("\n\n").collect();
    assert_eq!(blocks.len(), 5);
    let first = "\
Sheet 2: World panorama
  Les Ponts, reel 1: Zofia Żak
    opened with Chloé Martin
    to Eila Koskinen in round 2
    to Filipa Araújo in round 3, evening out between groups
    to Zofia Żak in round 4, evening out between groups
  Les Ponts, reel 2: Filipa Araújo
";
    assert!(blocks[1].starts_with(first), "{}", blocks[1]);
    assert!(blocks[1]
        .contains("  우산, reel 1: Kim Dae-jung\n    opened with Kim Dae-jung, and stayed\n"));
    assert!(blocks[1].ends_with("\n  12 moves, 3 price cuts"));
    assert_eq!(blocks[4], "Total: 26 moves, 4 price cuts\n");
    // Each reel and each move once.
    assert_eq!(print.matches("\n    opened with ").count(), 9 + 20 + 12 + 8);
    assert_eq!(print.matches("\n    to ").count(), 26);
    assert_eq!(print.matches(", evening out between groups\n").count(), 4);
}

/// Without the opening lists and the moves it is a result of `shares`.
#[test]
fn lines_in_between() {
    let lines = RUN_OF_FESTIVAL.lines();
    let kept = lines.filter(|line| !line.starts_with("opening") && !line.starts_with("reel"));
    let result: String = kept.map(|line| format!("{line}\n")).collect();
    assert!(names(FESTIVAL, &result).is_ok());
}

#[test]
fn there_and_back() {
    let text = "sheet\nweights 1 3\nreel A\nperson Ada: e\nperson Zoë: e\n";
    let result = "sheet 1 moves 2 cuts 0\nopening 1\nreel 1 from 1 to 2 round 1 step 2\n\
                  reel 1 from 2 to 1 round 1 step 2\nowners 1\nprices 3\ntotal moves 2 cuts 0\n";
    let print = "Sheet 1\n  A: Ada\n    opened with Ada\n    to Zoë in round 1\n    \
                 to Ada in round 1\n  2 moves, 0 price cuts\n\n\
                 Total: 2 moves, 0 price cuts\n";
    assert_eq!(why(text, result).unwrap(), print);
}

#[test]
fn no_reels_and_no_title() {
    let text = "sheet\nweights 1 3\nperson Ada:\n";
    let result = "sheet 1 moves 0 cuts 0\nopening\nowners\nprices\ntotal moves 0 cuts 0\n";
    let print = "Sheet 1\n  No reels\n  0 moves, 0 price cuts\n\n\
                 Total: 0 moves, 0 price cuts\n";
    assert_eq!(why(text, result).unwrap(), print);
}

#[test]
fn the_largest_numbers() {
    let mut result = "sheet 1 moves 1 cuts 31\nopening".to_string() + &" 1".repeat(4000);
    result += "\nreel 4000 from 1 to 32 round 32 step 1\n";
    result += &format!(
        "owners{} 32\nprices{}\n",
        " 1".repeat(3999),
        " 3".repeat(4000)
    );
    result += "total moves 1 cuts 31\n";
    let print = why(&plain_sheet(32, 4000), &result).unwrap();
    let last = "  R4000: P32\n    opened with P1\n    \
                to P32 in round 32, evening out between groups\n  1 move, 31 price cuts\n";
    assert!(print.contains(last), "{print}");
}

/// As many moves as `why` has a record for; each reel goes from hand to hand
/// and back.
#[test]
fn twenty_thousand_moves() {
    let mut result = "sheet 1 moves 20000 cuts 0\nopening".to_string() + &" 1".repeat(4000);
    for (giver, receiver) in [(1, 2), (2, 3), (3, 4), (4, 5), (5, 1)] {
        for reel in 1..=4000 {
            result += &format!("\nreel {reel} from {giver} to {receiver} round 1 step 2");
        }
    }
    result += &format!(
        "\nowners{}\nprices{}\n",
        " 1".repeat(4000),
        " 3".repeat(4000)
    );
    result += "total moves 20000 cuts 0\n";
    let print = why(&plain_sheet(5, 4000), &result).unwrap();
    let hands: String = [2, 3, 4, 5, 1]
        .map(|person| format!("    to P{person} in round 1\n"))
        .concat();
    for reel in [1, 2, 3999, 4000] {
        let history = format!("  R{reel}: P1\n    opened with P1\n{hands}");
        assert!(print.contains(&history), "{reel}");
    }
    assert_eq!(print.matches("\n    to ").count(), 20000);
}

#[test]
fn refused_sheet() {
    let text = SHEET_C.to_string() + "\nsheet Late show\nweights 1 3\nperson Ada:\n";
    for (number, reason) in [
        (4, "a bit is set after the last reel of a row"),
        (11, "the record is too short for the run's moves"),
    ] {
        let result = RUN_OF_C.replace("total", &format!("sheet 2 refused {number}\ntotal"));
        let block = format!("\n\nSheet 2: Late show\n  Refused ({number}): {reason}.\n\nTotal");
        let expected = WHY_OF_C.replace("\n\nTotal", &block);
        assert_eq!(why(&text, &result).unwrap(), expected);
    }
}

#[test]
fn refused_book() {
    let result = "book refused 9\n";
    let print = why(FESTIVAL, result).unwrap();
    assert!(print.starts_with("The book was refused (9): "), "{print}");
    assert_eq!(print, names(FESTIVAL, result).unwrap());
}
