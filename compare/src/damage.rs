//! Faults of a sheet: of its header, its length and the bits after its marks.

use crate::header;
use crate::random::Random;
use reference::limits::{MAX_AGENTS, MAX_CHORES, MAX_WEIGHT};
use reference::sheet::HEADER_BYTES;

/// What is done to a sheet, where it can be done.
#[derive(Debug, Clone, Copy, PartialEq, Eq)]
pub enum Fault {
    /// No agents, or more than there may be.
    Agents,
    /// More chores than there may be.
    Chores,
    /// The bytes of the number of chores the wrong way round.
    Swapped,
    /// Weights that break their rule.
    Weights,
    /// A byte or a row more or less at the end.
    Length,
    /// A row that lacks a byte.
    ShortRow,
    /// Bits after the last mark of a row.
    Bits,
    /// Cut short anywhere.
    Cut,
    /// A byte a mark, after a header with one byte of chores.
    Unpacked,
    /// Any byte in the place of another.
    Any,
}

pub const FAULTS: [Fault; 10] = [
    Fault::Agents,
    Fault::Chores,
    Fault::Swapped,
    Fault::Weights,
    Fault::Length,
    Fault::ShortRow,
    Fault::Bits,
    Fault::Cut,
    Fault::Unpacked,
    Fault::Any,
];

/// Each fault alone, five times, and each two of them, one after the other.
pub fn one_or_two() -> impl Iterator<Item = Vec<Fault>> + Clone {
    let five_times = FAULTS.into_iter().cycle().take(5 * FAULTS.len());
    let alone = five_times.map(|fault| vec![fault]);
    let after = |one: Fault| FAULTS.into_iter().map(move |other| vec![one, other]);
    alone.chain(FAULTS.into_iter().flat_map(after))
}

/// With one fault, or with two or three at once.
pub fn damaged(random: &mut Random, mut sheet: Vec<u8>) -> Vec<u8> {
    for _ in 0..[1, 1, 2, 3][random.below(4)] {
        let fault = FAULTS[random.below(FAULTS.len())];
        harm(random, &mut sheet, fault);
    }
    sheet
}

pub fn harm(random: &mut Random, sheet: &mut Vec<u8>, fault: Fault) {
    match fault {
        Fault::Agents => set_agents(random, sheet),
        Fault::Chores => set_chores(random, sheet),
        Fault::Swapped => swap_chores(sheet),
        Fault::Weights => set_weights(random, sheet),
        Fault::Length => change_length(random, sheet),
        Fault::ShortRow => shorten_row(random, sheet),
        Fault::Bits => set_bits(random, sheet),
        Fault::Cut => sheet.truncate(random.below(sheet.len().max(1))),
        Fault::Unpacked => unpack(sheet),
        Fault::Any => change_byte(random, sheet),
    }
}

fn set_agents(random: &mut Random, sheet: &mut [u8]) {
    if let Some(agents) = sheet.first_mut() {
        let above = MAX_AGENTS + 1 + random.below(255 - MAX_AGENTS);
        *agents = [0, MAX_AGENTS as u8 + 1, above as u8][random.below(3)];
    }
}

fn set_chores(random: &mut Random, sheet: &mut [u8]) {
    let above = MAX_CHORES + 1 + random.below(usize::from(u16::MAX) - MAX_CHORES);
    let chores = [MAX_CHORES + 1, above][random.below(2)];
    set_two_bytes(sheet, 1, chores as u16);
}

fn swap_chores(sheet: &mut [u8]) {
    if sheet.len() > 2 {
        sheet.swap(1, 2);
    }
}

fn set_weights(random: &mut Random, sheet: &mut [u8]) {
    let most = MAX_WEIGHT as u16;
    let equal = 1 + random.below(usize::from(most)) as u16;
    let weights = [
        (0, equal),
        (equal, equal),
        (equal, equal - 1),
        (equal, most + 1),
        (
            1,
            most + 1 + random.below(usize::from(u16::MAX - most)) as u16,
        ),
    ];
    let (easy, difficult) = weights[random.below(weights.len())];
    set_two_bytes(sheet, 3, easy);
    set_two_bytes(sheet, 5, difficult);
}

fn set_two_bytes(sheet: &mut [u8], at: usize, number: u16) {
    if let Some(bytes) = sheet.get_mut(at..at + 2) {
        bytes.copy_from_slice(&number.to_be_bytes());
    }
}

fn change_length(random: &mut Random, sheet: &mut Vec<u8>) {
    let by = [1, header::row(sheet).max(1)][random.below(2)];
    if random.chance(50) {
        sheet.truncate(sheet.len().saturating_sub(by));
    } else {
        let more = [vec![0; by], random.bytes(by)];
        sheet.extend(&more[random.below(2)]);
    }
}

fn shorten_row(random: &mut Random, sheet: &mut Vec<u8>) {
    if sheet.len() > HEADER_BYTES {
        let at = HEADER_BYTES + random.below(sheet.len() - HEADER_BYTES);
        sheet.remove(at);
    }
}

/// One bit of one row mostly, or any of some rows.
fn set_bits(random: &mut Random, sheet: &mut [u8]) {
    let (row, chores) = (header::row(sheet), header::chores(sheet));
    let left = 8 * row - chores;
    let rows = sheet.len().saturating_sub(HEADER_BYTES).checked_div(row);
    let rows = rows.unwrap_or(0);
    if left == 0 || rows == 0 {
        return;
    }
    for _ in 0..[1, 1, 3][random.below(3)] {
        let end = HEADER_BYTES + (1 + random.below(rows)) * row;
        sheet[end - 1] |= 1 << random.below(left);
    }
}

/// Only what one byte of chores can tell of.
fn unpack(sheet: &mut Vec<u8>) {
    let (row, chores) = (header::row(sheet), header::chores(sheet));
    if sheet.len() < HEADER_BYTES || chores > usize::from(u8::MAX) {
        return;
    }
    let marks = sheet.split_off(HEADER_BYTES);
    sheet.remove(1);
    for row in marks.chunks(row.max(1)) {
        let bit = |place: usize| {
            row.get(place / 8)
                .is_some_and(|byte| byte >> (7 - place % 8) & 1 == 1)
        };
        sheet.extend((0..chores).map(|place| if bit(place) { b'd' } else { b'e' }));
    }
}

/// Anywhere, or in the first ten.
fn change_byte(random: &mut Random, sheet: &mut [u8]) {
    let within = [sheet.len(), sheet.len().min(10)][random.below(2)];
    if within > 0 {
        sheet[random.below(within)] = random.byte();
    }
}
