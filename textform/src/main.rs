//! `textform book < text > book`, `textform names text < result`,
//! `textform why text < result` and `textform convert < old > book`.

use std::fs;
use std::io::{self, Read, Write};
use std::process::ExitCode;
use textform::instance::Instance;
use textform::result::{BookResult, Told};
use textform::sheet::Sheet;
use textform::{book, convert, names, result, text, why};

const USAGE: &str = "usage: textform book < TEXT > BOOK
       textform names TEXT < RESULT
       textform why TEXT < RESULT
       textform convert < OLD_BOOK > BOOK";

fn main() -> ExitCode {
    let words: Vec<String> = std::env::args().skip(1).collect();
    let words: Vec<&str> = words.iter().map(String::as_str).collect();
    let done = match words[..] {
        ["book"] => book(),
        ["names", path] => with_names(path, names::print),
        ["why", path] => with_names(path, why::print),
        ["convert"] => convert(),
        _ => {
            eprintln!("{USAGE}");
            return ExitCode::from(2);
        }
    };
    match done {
        Ok(()) => ExitCode::SUCCESS,
        Err(error) => {
            eprintln!("textform: {error}");
            ExitCode::FAILURE
        }
    }
}

fn book() -> Result<(), String> {
    let sheets = text::read(&read_input()?).map_err(|fault| fault.to_string())?;
    let instances: Vec<Instance> = sheets.iter().map(Instance::from).collect();
    write(&book::compose(&instances))
}

/// Packs the sheets of the old book on standard input.
fn convert() -> Result<(), String> {
    write(&convert::rewrite(&read_input()?)?)
}

/// Prints the result on standard input with the names of the text.
fn with_names<T: Told>(
    path: &str,
    print: fn(&[Sheet], &BookResult<T>) -> String,
) -> Result<(), String> {
    let bytes = fs::read(path).map_err(|error| format!("{path}: {error}"))?;
    let sheets = text::read(&bytes).map_err(|fault| format!("{path}: {fault}"))?;
    let result =
        result::read(&read_input()?, &sheets).map_err(|fault| format!("the result: {fault}"))?;
    write(print(&sheets, &result).as_bytes())
}

fn read_input() -> Result<Vec<u8>, String> {
    let mut bytes = Vec::new();
    let read = io::stdin().lock().read_to_end(&mut bytes);
    read.map_err(|error| format!("standard input: {error}"))?;
    Ok(bytes)
}

fn write(bytes: &[u8]) -> Result<(), String> {
    let mut output = io::stdout().lock();
    let written = output.write_all(bytes).and_then(|()| output.flush());
    written.map_err(|error| format!("standard output: {error}"))
}
