//! The lines of a sheet's moves, played over its opening list.

use crate::forms::{index_below, number_of, number_up_to, unlike, Lines};
use crate::lines::{at, Fault, Line};
use crate::result::Tally;
use crate::sheet::Sheet;

/// The step of the share-out that made a move.
#[derive(Debug, Clone, Copy, PartialEq, Eq)]
pub enum Step {
    /// From a group whose prices were cut to one whose were cut later.
    TwoA,
    TwoB,
}

impl Step {
    fn of(word: &str) -> Option<Self> {
        match number_up_to(2, word)? {
            1 => Some(Step::TwoA),
            _ => Some(Step::TwoB),
        }
    }
}

/// One chore handed over.
#[derive(Debug, Clone, PartialEq, Eq)]
pub struct Move {
    pub chore: usize,
    pub giver: usize,
    pub receiver: usize,
    /// Counted from 1; each price cut ends one.
    pub round: u64,
    pub step: Step,
}

/// The moves of a sheet, as many as its tally has. `owners` is the opening
/// list, and becomes the one after the moves.
pub fn read(
    lines: &mut Lines,
    sheet: &Sheet,
    tally: Tally,
    owners: &mut [usize],
) -> Result<Vec<Move>, Fault> {
    let rounds = tally.cuts.saturating_add(1);
    let mut moves = Vec::new();
    let mut round = 1;
    for number in 1..=tally.moves {
        let form = form(number, tally.moves);
        let line = lines.next(&form)?;
        let next = parse_move(&line, &form, sheet, rounds)?;
        play(&next, owners, round).map_err(at(line.number))?;
        round = next.round;
        moves.push(next);
    }
    end(lines)?;
    Ok(moves)
}

fn form(number: u64, moves: u64) -> String {
    format!("`reel R from P to Q round K step S`, move {number} of {moves}")
}

/// A fault if there is a further move.
fn end(lines: &mut Lines) -> Result<(), Fault> {
    let form = "`owners`, as the sheet has no further move";
    match lines.peek() {
        ["reel", ..] => Err(unlike(&lines.next(form)?, form)),
        _ => Ok(()),
    }
}

/// A move with all its numbers within their limits.
fn parse_move(line: &Line, form: &str, sheet: &Sheet, rounds: u64) -> Result<Move, Fault> {
    let ["reel", reel, "from", giver, "to", receiver, "round", round, "step", step] =
        line.words[..]
    else {
        return Err(unlike(line, form));
    };
    let (chores, agents) = (sheet.chores.len(), sheet.agents.len());
    let not = |word: &str, what: &str, last: u64| {
        let reason = format!("`{word}` is not {}", number_of(what, last));
        Fault::new(line.number, reason)
    };
    let agent = |word| index_below(agents, word).ok_or_else(|| not(word, "person", agents as u64));
    Ok(Move {
        chore: index_below(chores, reel).ok_or_else(|| not(reel, "reel", chores as u64))?,
        giver: agent(giver)?,
        receiver: agent(receiver)?,
        round: number_up_to(rounds, round).ok_or_else(|| not(round, "round", rounds))?,
        step: Step::of(step).ok_or_else(|| not(step, "step", 2))?,
    })
}

/// Hands the chore over, or tells why that cannot be.
fn play(next: &Move, owners: &mut [usize], last_round: u64) -> Result<(), String> {
    let Move {
        chore,
        giver,
        receiver,
        round,
        ..
    } = *next;
    let (reel, person, owner) = (chore + 1, giver + 1, owners[chore] + 1);
    if giver == receiver {
        return Err(format!(
            "reel {reel} goes from person {person} to the same person"
        ));
    }
    if owner != person {
        return Err(format!(
            "reel {reel} is with person {owner} at this point, not with person {person}"
        ));
    }
    if round < last_round {
        return Err(format!(
            "round {round} after round {last_round}; the moves are in the order made"
        ));
    }
    owners[chore] = receiver;
    Ok(())
}
