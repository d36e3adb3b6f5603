//! `reference shares < book`, `reference why < book` and `reference cases`.

use reference::limits::MAX_BOOK_BYTES;
use reference::{cases, output, why};
use std::io::{self, Read, Write};
use std::process::ExitCode;

fn main() -> ExitCode {
    let words: Vec<String> = std::env::args().skip(1).collect();
    let words: Vec<&str> = words.iter().map(String::as_str).collect();
    let done = match words[..] {
        ["shares"] => read_book().and_then(|book| write(&output::shares(&book))),
        ["why"] => read_book().and_then(|book| write(&why::why(&book))),
        ["cases"] => write(&cases::print()),
        _ => {
            eprintln!("usage: reference shares|why < book, or reference cases");
            return ExitCode::from(2);
        }
    };
    match done {
        Ok(()) => ExitCode::SUCCESS,
        Err(error) => {
            eprintln!("reference: {error}");
            ExitCode::FAILURE
        }
    }
}

/// One byte above the limit is enough to see that a book is too long.
fn read_book() -> io::Result<Vec<u8>> {
    let mut book = Vec::new();
    let most = MAX_BOOK_BYTES as u64 + 1;
    io::stdin().lock().take(most).read_to_end(&mut book)?;
    Ok(book)
}

fn write(text: &str) -> io::Result<()> {
    io::stdout().lock().write_all(text.as_bytes())
}
