//! The sheet of releases up to 6.2.8, with a byte for each mark.

use crate::bytes::number_at;
use crate::instance::Instance;
use crate::sheet::{are_weights, Mark, MAX_AGENTS, MAX_WEIGHT};

/// The numbers of agents and of chores; both weights.
const HEADER_BYTES: usize = 6;
const MAX_CHORES: usize = 200;

/// What the sheet says, or the first rule of such sheets that it breaks.
pub fn read(bytes: &[u8]) -> Result<Instance, String> {
    let length = bytes.len();
    if length < HEADER_BYTES {
        return Err(format!(
            "its length is {length}, below the {HEADER_BYTES} of a header"
        ));
    }
    let (agents, chores) = (usize::from(bytes[0]), usize::from(bytes[1]));
    let (easy, difficult) = (number_at(bytes, 2), number_at(bytes, 4));
    check_header(agents, chores, easy, difficult)?;
    if length != HEADER_BYTES + agents * chores {
        return Err(format!(
            "its length is {length}, not {HEADER_BYTES} + {agents} * {chores}"
        ));
    }
    let row = |agent| row(&bytes[HEADER_BYTES + agent * chores..][..chores], agent + 1);
    let rows = (0..agents).map(row).collect::<Result<_, _>>()?;
    Ok(Instance {
        easy,
        difficult,
        chores,
        rows,
    })
}

fn check_header(agents: usize, chores: usize, easy: u16, difficult: u16) -> Result<(), String> {
    if !(1..=MAX_AGENTS).contains(&agents) {
        return Err(format!(
            "its number of people is {agents}, not 1 to {MAX_AGENTS}"
        ));
    }
    if chores > MAX_CHORES {
        return Err(format!(
            "its number of reels is {chores}, above {MAX_CHORES}"
        ));
    }
    if !are_weights(easy, difficult) {
        return Err(format!(
            "its weights are {easy} and {difficult}, not 1 <= easy < difficult <= {MAX_WEIGHT}"
        ));
    }
    Ok(())
}

/// The marks of the person of this number.
fn row(bytes: &[u8], person: usize) -> Result<Vec<Mark>, String> {
    let marks = bytes.iter().zip(1..).map(|(byte, reel)| match byte {
        b'e' => Ok(Mark::Easy),
        b'd' => Ok(Mark::Difficult),
        _ => Err(format!(
            "mark {reel} of person {person} is hexadecimal {byte:02x}, neither 65 (e) nor 64 (d)"
        )),
    });
    marks.collect()
}
