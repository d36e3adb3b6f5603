//! Numbered lines out of bytes, and faults that name their line.

use std::fmt;

/// What is wrong with an input, and where.
#[derive(Debug, Clone, PartialEq, Eq)]
pub struct Fault {
    /// Counted from 1.
    pub line: usize,
    pub reason: String,
}

impl Fault {
    pub fn new(line: usize, reason: impl Into<String>) -> Self {
        let reason = reason.into();
        Fault { line, reason }
    }
}

impl fmt::Display for Fault {
    fn fmt(&self, f: &mut fmt::Formatter) -> fmt::Result {
        write!(f, "line {}: {}", self.line, self.reason)
    }
}

/// Makes a reason a fault of this line.
pub fn at(line: usize) -> impl Fn(String) -> Fault {
    move |reason| Fault::new(line, reason)
}

/// A line that is not blank.
#[derive(Debug, Clone, PartialEq, Eq)]
pub struct Line<'a> {
    /// Counted from 1, blank lines included.
    pub number: usize,
    /// At least one.
    pub words: Vec<&'a str>,
}

/// The lines that are not blank, with their words.
pub fn lines_of(bytes: &[u8]) -> Result<Vec<Line<'_>>, Fault> {
    let numbered = text_of(bytes)?.lines().zip(1..);
    let lines = numbered.map(|(line, number)| {
        let words = line.split_whitespace().collect();
        Line { number, words }
    });
    Ok(lines.filter(|line| !line.words.is_empty()).collect())
}

/// The bytes as text, less the mark that some editors put in front.
fn text_of(bytes: &[u8]) -> Result<&str, Fault> {
    let text = std::str::from_utf8(bytes).map_err(|error| {
        let before = &bytes[..error.valid_up_to()];
        let line = 1 + before.iter().filter(|&&byte| byte == b'\n').count();
        Fault::new(line, "this is not UTF-8 text")
    })?;
    Ok(text.strip_prefix('\u{feff}').unwrap_or(text))
}
