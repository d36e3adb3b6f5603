//! The text form: what is read, and what is forgiven.

mod common;

use common::{plain_sheet, sheets, FESTIVAL, SHEET_C};
use textform::sheet::{Mark, Sheet};

/// A sheet's rows as letters.
fn rows(sheet: &Sheet) -> Vec<String> {
    let letter = |mark: &Mark| &mark.word()[..1];
    let agents = sheet.agents.iter();
    agents
        .map(|agent| agent.marks.iter().map(letter).collect())
        .collect()
}

fn names(sheet: &Sheet) -> Vec<&str> {
    let agents = sheet.agents.iter();
    agents.map(|agent| agent.name.as_str()).collect()
}

#[test]
fn sheet_c() {
    let sheets = sheets(SHEET_C);
    assert_eq!(sheets.len(), 1);
    let sheet = &sheets[0];
    assert_eq!((sheet.line, sheet.title.as_str()), (3, "C"));
    assert_eq!((sheet.easy, sheet.difficult), (1, 3));
    assert_eq!(sheet.chores.len(), 5);
    assert_eq!(sheet.chores[4], "Salt Road, reel 2");
    assert_eq!(names(sheet), ["Ada", "Boris"]);
    assert_eq!(rows(sheet), ["eeeee", "dddde"]);
}

#[test]
fn festival() {
    let sheets = sheets(FESTIVAL);
    let sizes: Vec<(usize, usize)> = sheets
        .iter()
        .map(|sheet| (sheet.agents.len(), sheet.chores.len()))
        .collect();
    assert_eq!(sizes, [(5, 9), (5, 20), (7, 12), (6, 8)]);
    assert_eq!(sheets[2].chores[0], "Take #9");
    assert_eq!(sheets[2].chores[1], "Snow: an Inventory");
}

#[test]
fn names_with_blanks_and_all_letters() {
    let text = "sheet Łódź: été\nweights 1 3\nreel 우산\n\
                person Ada  Novak\t: e\nperson Team: North: d\nperson Żak (2) :e\n";
    let sheet = &sheets(text)[0];
    assert_eq!(sheet.title, "Łódź: été");
    assert_eq!(sheet.chores, ["우산"]);
    assert_eq!(names(sheet), ["Ada Novak", "Team: North", "Żak (2)"]);
    assert_eq!(rows(sheet), ["e", "d", "e"]);
}

#[test]
fn blanks_capitals_and_line_ends() {
    let plain = "sheet One\nweights 1 3\nreel A b\nreel C\nperson Ada: ed\n";
    let loose =
        "\u{feff}SHEET  One \r\n\tWeights\t1, 3\r\nReel A \t b\r\n reel C\r\nPERSON Ada :  E  D";
    assert_eq!(sheets(loose), sheets(plain));
}

#[test]
fn comments() {
    let text = "# sheet Zero\n#\n\n  #sheet Zero\nsheet One # the first\nweights 1 3 # a b\n\
                reel Take #9\nreel #10 # a title\nreel A#B\nperson Ada: ede # eee: eee\n";
    let sheet = &sheets(text)[0];
    assert_eq!((sheet.line, sheet.title.as_str()), (5, "One"));
    assert_eq!(sheet.chores, ["Take #9", "#10", "A#B"]);
    assert_eq!(rows(sheet), ["ede"]);
}

#[test]
fn weights_may_come_last_and_titles_may_be_missing() {
    let text = "sheet\nreel A\nperson Ada: e\nweights 999 1000\nsheet\nweights 1,2\nperson Ada:\n";
    let sheets = sheets(text);
    assert_eq!(sheets[0].title, "");
    assert_eq!((sheets[0].easy, sheets[0].difficult), (999, 1000));
    assert_eq!((sheets[1].easy, sheets[1].difficult), (1, 2));
}

#[test]
fn no_reels() {
    let text = "sheet Quiet\nweights 1 3\nperson Ada:\nperson Boris :\n";
    let sheet = &sheets(text)[0];
    assert!(sheet.chores.is_empty());
    assert_eq!(rows(sheet), ["", ""]);
}

#[test]
fn sheets_are_apart() {
    let text = "sheet\nweights 1 3\nreel A\nperson Ada: e\n".repeat(2);
    let sheets = sheets(&text);
    assert_eq!((sheets[0].line, sheets[1].line), (1, 5));
    assert_eq!(sheets[0].agents, sheets[1].agents);
}

#[test]
fn the_largest_sheet() {
    let sheet = &sheets(&plain_sheet(32, 4000))[0];
    assert_eq!((sheet.agents.len(), sheet.chores.len()), (32, 4000));
}
