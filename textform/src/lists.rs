//! The owners and the prices of a sheet, which is all that `shares` tells of
//! one that is shared out.

use crate::forms::{index_below, number_of, parse, unlike, Lines};
use crate::lines::Fault;
use crate::refusal::{self, Refusal};
use crate::result::{Tally, Told};
use crate::sheet::Sheet;

#[derive(Debug, Clone, PartialEq, Eq)]
pub struct Lists {
    /// The agent of each chore, from 0.
    pub owners: Vec<usize>,
    pub prices: Vec<u32>,
}

impl Told for Lists {
    fn refusal(number: u8) -> Option<Refusal> {
        refusal::of_sheet(number)
    }

    fn read(lines: &mut Lines, sheet: &Sheet, _: Tally) -> Result<Self, Fault> {
        Ok(Lists {
            owners: agents(lines, "owners", sheet)?,
            prices: prices(lines, sheet)?,
        })
    }
}

/// A line of this word and one agent per chore.
pub fn agents(lines: &mut Lines, word: &str, sheet: &Sheet) -> Result<Vec<usize>, Fault> {
    let agents = sheet.agents.len();
    let agent = |word: &str| index_below(agents, word);
    let what = number_of("person", agents as u64);
    list(lines, word, &what, sheet.chores.len(), agent)
}

pub fn prices(lines: &mut Lines, sheet: &Sheet) -> Result<Vec<u32>, Fault> {
    let price = |word: &str| parse(word).filter(|&price| price > 0);
    let what = "a price, 1 or more";
    list(lines, "prices", what, sheet.chores.len(), price)
}

/// Which command reads a result that has the one line where the other should be.
fn other_command(should: &str, is: &str) -> &'static str {
    match (should, is) {
        ("owners", "opening") => "; what `why` prints is read by `textform why`",
        ("opening", "owners") => "; what `shares` prints is read by `textform names`",
        _ => "",
    }
}

/// A line of one entry per chore.
fn list<T>(
    lines: &mut Lines,
    word: &str,
    what: &str,
    chores: usize,
    read: impl Fn(&str) -> Option<T>,
) -> Result<Vec<T>, Fault> {
    let form = format!("`{word}` with one number per reel, {chores} in all");
    let line = lines.next(&form)?;
    let (first, entries) = (line.words[0], &line.words[1..]);
    if first != word {
        return Err(unlike(&line, &(form + other_command(word, first))));
    }
    if entries.len() != chores {
        let reason = format!("this should be {form}, but has {}", entries.len());
        return Err(Fault::new(line.number, reason));
    }
    let wrong = |entry, reel| format!("`{entry}` for reel {reel} is not {what}");
    let entries = entries.iter().zip(1..).map(|(entry, reel)| {
        read(entry).ok_or_else(|| Fault::new(line.number, wrong(entry, reel)))
    });
    entries.collect()
}
