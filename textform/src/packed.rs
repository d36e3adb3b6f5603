//! The bytes of a sheet: a header, then a row of bits for each agent.

use crate::bytes::{byte, number_at, two_bytes};
use crate::instance::Instance;
use crate::sheet::{Mark, MAX_AGENTS, MAX_CHORES};

/// The numbers of agents and, in two bytes, of chores; both weights.
const HEADER_BYTES: usize = 7;

/// The sheet of this instance, which must be within the limits.
pub fn sheet(instance: &Instance) -> Vec<u8> {
    let mut bytes = vec![byte(instance.rows.len())];
    bytes.extend(two_bytes(instance.chores));
    bytes.extend(instance.easy.to_be_bytes());
    bytes.extend(instance.difficult.to_be_bytes());
    for marks in &instance.rows {
        bytes.extend(marks.chunks(8).map(pack));
    }
    bytes
}

/// How long such a sheet is; each row starts on a fresh byte.
pub fn length(agents: usize, chores: usize) -> usize {
    HEADER_BYTES + agents * chores.div_ceil(8)
}

/// Whether these bytes are as long as their header says.
pub fn is_sheet(bytes: &[u8]) -> bool {
    if bytes.len() < HEADER_BYTES {
        return false;
    }
    let (agents, chores) = (usize::from(bytes[0]), usize::from(number_at(bytes, 1)));
    (1..=MAX_AGENTS).contains(&agents)
        && chores <= MAX_CHORES
        && bytes.len() == length(agents, chores)
}

/// Up to eight marks, a bit each, the first one highest: 1 for difficult. Bits
/// after the last mark are 0.
fn pack(marks: &[Mark]) -> u8 {
    let bits = marks.iter().zip((0..8).rev());
    bits.map(|(&mark, place)| u8::from(mark == Mark::Difficult) << place)
        .sum()
}
