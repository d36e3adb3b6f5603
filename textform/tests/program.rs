//! The program itself: its outputs, its errors and its exit status.

mod common;

use common::{NAMES_OF_C, RESULT_OF_C, RUN_OF_C, SHEET_C, WHY_OF_C};
use std::io::Write;
use std::process::{Command, Output, Stdio};

const PATH_OF_C: &str = concat!(env!("CARGO_MANIFEST_DIR"), "/../examples/sheet-c.txt");

fn run(words: &[&str], input: &[u8]) -> Output {
    let mut child = Command::new(env!("CARGO_BIN_EXE_textform"))
        .args(words)
        .stdin(Stdio::piped())
        .stdout(Stdio::piped())
        .stderr(Stdio::piped())
        .spawn()
        .expect("the program starts");
    // The program may leave before it has read its input.
    let _ = child.stdin.take().expect("a pipe").write_all(input);
    child.wait_with_output().expect("the program ends")
}

fn assert_writes(words: &[&str], input: &[u8], expected: &[u8]) {
    let output = run(words, input);
    assert_eq!(output.status.code(), Some(0));
    assert_eq!(output.stdout, expected);
    assert!(output.stderr.is_empty());
}

fn assert_error(words: &[&str], input: &[u8], status: i32, start: &str) {
    let output = run(words, input);
    assert_eq!(output.status.code(), Some(status));
    assert!(output.stdout.is_empty());
    let error = String::from_utf8_lossy(&output.stderr);
    assert!(error.starts_with(start), "{error}");
}

#[test]
fn book_and_names_of_c() {
    assert_writes(&["book"], SHEET_C.as_bytes(), &common::book(SHEET_C));
    let words = ["names", PATH_OF_C];
    assert_writes(&words, RESULT_OF_C.as_bytes(), NAMES_OF_C.as_bytes());
}

#[test]
fn why_of_c() {
    let words = ["why", PATH_OF_C];
    assert_writes(&words, RUN_OF_C.as_bytes(), WHY_OF_C.as_bytes());
}

#[test]
fn convert_of_c() {
    let old = b"\x01\x00\x05\x00\x10\x02\x05\x00\x01\x00\x03eeeeedddde";
    assert_writes(&["convert"], old, &common::book(SHEET_C));
}

/// The first of two sheets is a good one, and still nothing is written.
#[test]
fn errors_of_convert() {
    let no_book = "textform: this is no book: it is empty\n";
    assert_error(&["convert"], b"", 1, no_book);
    let old = b"\x02\x00\x09\x00\x07\x00\x10\x00\x07\
                \x01\x01\x00\x01\x00\x03e\x01\x01\x00\x01\x00\x03x";
    let no_sheet = "textform: sheet 2 is no old sheet: mark 1 of person 1 is hexadecimal 78";
    assert_error(&["convert"], old, 1, no_sheet);
}

#[test]
fn errors() {
    assert_error(
        &["book"],
        b"sheet\nreels\n",
        1,
        "textform: line 2: unknown word `reels`",
    );
    let result = "textform: the result: line 1: no book";
    assert_error(&["names", PATH_OF_C], b"book refused 1\n", 1, result);
    let early = "textform: the result: line 2: this should be `opening`";
    assert_error(&["why", PATH_OF_C], RESULT_OF_C.as_bytes(), 1, early);
    for word in ["names", "why"] {
        let words = [word, "no such file"];
        assert_error(&words, b"", 1, "textform: no such file: ");
    }
    // Not a text of sheets.
    let path = concat!(env!("CARGO_MANIFEST_DIR"), "/Cargo.toml");
    let text = format!("textform: {path}: line 1: unknown word `[package]`");
    assert_error(&["names", path], b"", 1, &text);
}

#[test]
fn usage() {
    for words in [
        &[][..],
        &["book", "x"],
        &["names"],
        &["names", "a", "b"],
        &["why"],
        &["why", "a", "b"],
        &["convert", "a"],
        &["name"],
    ] {
        assert_error(words, b"", 2, "usage: textform book");
    }
}
