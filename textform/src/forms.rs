//! Lines that must have a given form, one after the other.

use crate::lines::{lines_of, Fault, Line};
use std::str::FromStr;
use std::vec::IntoIter;

/// The lines still to be read.
pub struct Lines<'a> {
    rest: IntoIter<Line<'a>>,
    /// The line after the last one.
    end: usize,
}

impl<'a> Lines<'a> {
    pub fn new(bytes: &'a [u8]) -> Result<Self, Fault> {
        let lines = lines_of(bytes)?;
        let end = lines.last().map_or(1, |line| line.number + 1);
        let rest = lines.into_iter();
        Ok(Lines { rest, end })
    }

    /// The words of the next line; none at the end.
    pub fn peek(&self) -> &[&'a str] {
        self.rest.as_slice().first().map_or(&[], |line| &line.words)
    }

    /// The number of the next line, or of the end.
    pub fn number(&self) -> usize {
        let next = self.rest.as_slice().first();
        next.map_or(self.end, |line| line.number)
    }

    /// The next line, which should have this form.
    pub fn next(&mut self, form: &str) -> Result<Line<'a>, Fault> {
        let reason = || format!("the result ends too early; here should be {form}");
        let next = self.rest.next();
        next.ok_or_else(|| Fault::new(self.end, reason()))
    }

    /// A fault if there is a further line.
    pub fn end(mut self) -> Result<(), Fault> {
        match self.rest.next() {
            Some(line) => Err(Fault::new(line.number, "the result should end before this")),
            None => Ok(()),
        }
    }
}

/// The fault of a line that has another form.
pub fn unlike(line: &Line, form: &str) -> Fault {
    Fault::new(line.number, format!("this should be {form}"))
}

/// A number of digits only.
pub fn parse<T: FromStr>(word: &str) -> Option<T> {
    let is_number = word.bytes().all(|byte| byte.is_ascii_digit());
    word.parse().ok().filter(|_| is_number)
}

/// A number from 1 to this.
pub fn number_up_to(last: u64, word: &str) -> Option<u64> {
    parse(word).filter(|number| (1..=last).contains(number))
}

/// The index, from 0, of what is numbered from 1 to this.
pub fn index_below(count: usize, word: &str) -> Option<usize> {
    let number = number_up_to(count as u64, word)?;
    usize::try_from(number - 1).ok()
}

/// What such a number is, in words.
pub fn number_of(what: &str, last: u64) -> String {
    match last {
        0 => format!("the number of a {what}, as there is none"),
        _ => format!("the number of a {what}, 1 to {last}"),
    }
}
