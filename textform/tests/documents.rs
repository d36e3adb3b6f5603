//! The examples in the documents are what is printed.

mod common;

use common::{book, book_of, old_sheet, FESTIVAL, NAMES_OF_C, RESULT_OF_C, RUN_OF_C, WHY_OF_C};
use textform::convert::rewrite;

#[test]
fn examples() {
    let readmes = [
        include_str!("../../README.md"),
        include_str!("../README.md"),
    ];
    for readme in readmes {
        for text in [RESULT_OF_C, NAMES_OF_C, RUN_OF_C, WHY_OF_C] {
            assert!(readme.contains(&format!("```\n{text}```\n")), "{text}");
        }
    }
    assert!(include_str!("../../man/why.1").contains(RUN_OF_C));
    let with_refusal = RESULT_OF_C.replace("total", "sheet 2 refused 4\ntotal");
    assert!(include_str!("../../man/shares.1").contains(&with_refusal));
    assert!(include_str!("../../docs/FORMATS.md").contains(&with_refusal));
}

#[test]
fn errors_of_convert() {
    let sheets = ["e", "x"].map(|row| old_sheet(&(1, 3, vec![row.to_string()])));
    let books = [
        book_of(&sheets),
        book(FESTIVAL),
        FESTIVAL.as_bytes().to_vec(),
    ];
    for book in books {
        let line = format!("\ntextform: {}\n", rewrite(&book).unwrap_err());
        assert!(include_str!("../README.md").contains(&line), "{line}");
    }
}
