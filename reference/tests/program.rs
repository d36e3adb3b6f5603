//! The program itself, from standard input to standard output.

mod common;

use common::c;
use reference::{cases, compose};
use std::io::Write;
use std::process::{Command, Output, Stdio};

fn run(words: &[&str], input: &[u8]) -> Output {
    let mut child = Command::new(env!("CARGO_BIN_EXE_reference"))
        .args(words)
        .stdin(Stdio::piped())
        .stdout(Stdio::piped())
        .stderr(Stdio::piped())
        .spawn()
        .expect("the program starts");
    // The program may leave before it has read all of a long input.
    let _ = child.stdin.take().expect("a pipe").write_all(input);
    child.wait_with_output().expect("the program ends")
}

fn assert_prints(words: &[&str], input: &[u8], print: &str) {
    let output = run(words, input);
    assert!(output.status.success());
    assert_eq!(String::from_utf8_lossy(&output.stdout), print);
}

#[test]
fn shares() {
    let of_c = "sheet 1 moves 3 cuts 1\n\
                owners 2 2 1 1 2\n\
                prices 3 3 3 3 1\n\
                total moves 3 cuts 1\n";
    assert_prints(&["shares"], &compose::book(&[c()]), of_c);
    assert_prints(&["shares"], &[], "book refused 9\n");
}

#[test]
fn why() {
    let book = compose::book(&[c()]);
    assert_prints(&["why"], &book, &reference::why::why(&book));
    assert_prints(&["why"], &[], "book refused 9\n");
}

#[test]
fn a_long_input() {
    let longest = compose::book(&[vec![33; 65_530]]);
    let print = "sheet 1 refused 1\ntotal moves 0 cuts 0\n";
    let longer = [&longest[..], &[0]].concat();
    for word in ["shares", "why"] {
        assert_prints(&[word], &longest, print);
        assert_prints(&[word], &longer, "book refused 9\n");
        assert_prints(&[word], &longest.repeat(9), "book refused 9\n");
    }
}

#[test]
fn cases_and_usage() {
    assert_prints(&["cases"], &[], &cases::print());
    for words in [&[][..], &["share"], &["shares", "more"], &["why", "why"]] {
        assert_eq!(run(words, &[]).status.code(), Some(2));
    }
}
