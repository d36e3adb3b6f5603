//! Texts that cannot be read, each with its line.

mod common;

use common::{assert_fault, book, plain_sheet};
use textform::lines::Fault;
use textform::text;

fn fault(text: &str) -> Fault {
    text::read(text.as_bytes()).expect_err(text)
}

/// Each text with the line of its fault and a part of the reason.
fn assert_faults(table: &[(&str, usize, &str)]) {
    for (text, line, part) in table {
        assert_fault(fault(text), *line, part);
    }
}

/// Lines after a sheet's first two.
fn in_sheet(lines: &str) -> String {
    format!("sheet One\nweights 1 3\n{lines}")
}

#[test]
fn words() {
    assert_faults(&[
        (
            "sheet One\nweights 1 3\nreels A, B\n",
            3,
            "unknown word `reels`",
        ),
        ("sheet One\n\n# note\nAda: e\n", 4, "unknown word `Ada:`"),
        ("weights 1 3\nsheet One\n", 1, "belongs to no sheet"),
        ("# note\nreel A\n", 2, "belongs to no sheet"),
        ("\nperson Ada: e\n", 2, "belongs to no sheet"),
    ]);
}

#[test]
fn sheets_that_lack_something() {
    assert_faults(&[
        ("", 1, "no sheet"),
        ("\n# nothing\n\n", 1, "no sheet"),
        ("sheet One\nreel A\nperson Ada: e\n", 1, "no weights"),
        ("sheet One\nweights 1 3\nreel A\n", 1, "no people"),
        ("\nsheet One\nweights 1 3\n", 2, "no people"),
    ]);
    let second = in_sheet("person Ada:\nsheet Two\nperson Ada:\n");
    assert_fault(fault(&second), 4, "no weights");
}

#[test]
fn the_first_fault_is_told() {
    let text = "sheet One\nreel A\nperson Ada: e\nsheet Two\nperson Ada: x\n";
    assert_fault(fault(text), 1, "no weights");
}

#[test]
fn weights() {
    for weights in [
        "",
        "1",
        "1 2 3",
        "0 3",
        "3 3",
        "3 2",
        "1 1001",
        "one 3",
        "-1 3",
        "1.5 3",
        "1 99999",
        "1 1,000",
        "1 3 #note",
        "1 99999999999999999999999",
    ] {
        let text = format!("sheet One\n\nweights {weights}\nperson Ada:\n");
        assert_fault(fault(&text), 3, "two whole numbers");
    }
    let twice = in_sheet("weights 1 3\n");
    assert_fault(fault(&twice), 3, "already has its weights");
}

#[test]
fn reels() {
    for (lines, line, part) in [
        ("reel\n", 3, "needs a title"),
        ("reel # A\n", 3, "needs a title"),
        ("reel A\nreel B\nreel  A\n", 5, "already has a reel `A`"),
        ("person Ada:\nreel A\n", 4, "a reel after a person"),
        (
            "reel A\nperson Ada: e\nreel B\n",
            5,
            "a reel after a person",
        ),
    ] {
        assert_fault(fault(&in_sheet(lines)), line, part);
    }
}

#[test]
fn people() {
    for (lines, line, part) in [
        ("person Ada: e\nreel A\n", 3, "a person before the reels"),
        ("reel A\nperson Ada e\n", 4, "a colon"),
        ("reel A\nperson\n", 4, "a colon"),
        ("reel A\nperson : e\n", 4, "needs a name"),
        (
            "reel A\nperson Ada: e\nperson Ada : d\n",
            5,
            "already has a person `Ada`",
        ),
        ("reel A\nperson Ada: x\n", 4, "mark 1 of `Ada` is `x`"),
        (
            "reel A\nreel B\nperson Ada: e é\n",
            5,
            "mark 2 of `Ada` is `é`",
        ),
        ("reel A\nperson Ada: e #note\n", 4, "mark 2 of `Ada` is `#`"),
        ("reel A\nreel B\nperson Ada: e\n", 5, "2 in all, but has 1"),
        (
            "reel A\nreel B\nperson Ada: e d e\n",
            5,
            "2 in all, but has 3",
        ),
        ("reel A\nperson Ada:\n", 4, "1 in all, but has 0"),
    ] {
        assert_fault(fault(&in_sheet(lines)), line, part);
    }
}

#[test]
fn people_reels_and_sheets_above_their_limits() {
    let people = fault(&plain_sheet(33, 2));
    assert_fault(people, 2 + 2 + 33, "at most 32 people");
    let reels = fault(&plain_sheet(1, 4001));
    assert_fault(reels, 2 + 4001, "at most 4000 reels");
    let sheets = fault(&plain_sheet(1, 0).repeat(17));
    assert_fault(sheets, 3 * 16 + 1, "at most 16 sheets");
}

/// Six sheets; with a last one of 475 bytes, 65,535 in all.
fn long_text(last_agents: usize, last_chores: usize) -> String {
    let full = plain_sheet(32, 4000).repeat(4) + &plain_sheet(2, 4000);
    full + &plain_sheet(last_agents, last_chores)
}

#[test]
fn book_above_its_limit() {
    // Rows of 117 bytes, with and without bits left over.
    for chores in [929, 936] {
        assert_eq!(book(&long_text(4, chores)).len(), 65_535);
    }
    let line = 4 * (2 + 4032) + (2 + 4002) + 1;
    let longer = fault(&long_text(7, 529));
    assert_fault(longer, line, "over 65535 bytes");
    let wider = fault(&long_text(4, 937));
    assert_fault(wider, line, "over 65535 bytes");
    let far_longer = fault(&plain_sheet(32, 4000).repeat(16));
    assert_fault(far_longer, 4 * 4034 + 1, "over 65535 bytes");
}

#[test]
fn bytes_that_are_no_text() {
    let fault = text::read(b"sheet One\nweights 1 3\nreel \xff\n").unwrap_err();
    assert_fault(fault, 3, "not UTF-8");
}
