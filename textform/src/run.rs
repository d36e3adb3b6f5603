//! A run of the share-out, which is what `why` tells of a sheet: the opening
//! list, each move in the order made, and the lists of `shares`.

use crate::forms::Lines;
use crate::lines::{at, Fault};
use crate::lists::{agents, prices, Lists};
use crate::moves::{self, Move};
use crate::refusal::{self, Refusal};
use crate::result::{Tally, Told};
use crate::sheet::Sheet;

#[derive(Debug, Clone, PartialEq, Eq)]
pub struct Run {
    /// The agent who has each chore before the first move, from 0.
    pub opening: Vec<usize>,
    /// Played over the opening, they give the owners.
    pub moves: Vec<Move>,
    pub lists: Lists,
}

impl Told for Run {
    fn refusal(number: u8) -> Option<Refusal> {
        refusal::of_recorded_sheet(number)
    }

    fn read(lines: &mut Lines, sheet: &Sheet, tally: Tally) -> Result<Self, Fault> {
        let opening = agents(lines, "opening", sheet)?;
        let mut held = opening.clone();
        let moves = moves::read(lines, sheet, tally, &mut held)?;
        let line = lines.number();
        let owners = agents(lines, "owners", sheet)?;
        agree(&owners, &held).map_err(at(line))?;
        let prices = prices(lines, sheet)?;
        Ok(Run {
            opening,
            moves,
            lists: Lists { owners, prices },
        })
    }
}

/// The owners must be those who hold the chores after the moves.
fn agree(owners: &[usize], held: &[usize]) -> Result<(), String> {
    match (0..held.len()).find(|&chore| owners[chore] != held[chore]) {
        None => Ok(()),
        Some(chore) => {
            let (owner, holder, reel) = (owners[chore] + 1, held[chore] + 1, chore + 1);
            Err(format!(
                "`{owner}` for reel {reel} should be `{holder}`, by the opening and the moves"
            ))
        }
    }
}
