//! Refusal numbers that `shares` and `why` may print, in words.

use std::fmt;

#[derive(Debug, Clone, Copy, PartialEq, Eq)]
pub struct Refusal {
    pub number: u8,
    pub reason: &'static str,
}

impl fmt::Display for Refusal {
    fn fmt(&self, f: &mut fmt::Formatter) -> fmt::Result {
        write!(f, "({}): {}.", self.number, self.reason)
    }
}

/// Why a sheet was refused; none for a number that no sheet is refused with.
pub fn of_sheet(number: u8) -> Option<Refusal> {
    let reason = match number {
        1 => "the sheet has no people, or more than 32",
        2 => "the sheet has more than 4000 reels",
        3 => "the weights are not 1 <= easy < difficult <= 1000",
        4 => "a bit is set after the last reel of a row",
        5 => "the sheet's length does not fit its people and reels",
        8 => "too little memory was lent",
        _ => return None,
    };
    Some(Refusal { number, reason })
}

/// The same for a share-out with a record of its moves, as `why` does it.
pub fn of_recorded_sheet(number: u8) -> Option<Refusal> {
    let reason = match number {
        11 => "the record is too short for the run's moves",
        _ => return of_sheet(number),
    };
    Some(Refusal { number, reason })
}

/// Why a book was refused; none for a number that no book is refused with.
pub fn of_book(number: u8) -> Option<Refusal> {
    let reason = match number {
        8 => "too little memory was lent",
        9 => "it is empty or over 65535 bytes, or its contents do not fit 1 to 16 sheets",
        _ => return None,
    };
    Some(Refusal { number, reason })
}
