//! The numbers for what is turned down.

/// No agents, or too many.
pub const AGENTS: u8 = 1;
/// Too many chores.
pub const CHORES: u8 = 2;
/// Weights that are not 1 <= easy < difficult <= the limit.
pub const WEIGHTS: u8 = 3;
/// A set bit after the last chore of a row.
pub const BIT: u8 = 4;
/// A sheet of the wrong length.
pub const LENGTH: u8 = 5;
/// An owner list that is not one entry per chore.
pub const OWNER_COUNT: u8 = 6;
/// An owner who is not on the sheet.
pub const OWNER: u8 = 7;
/// A lent result list or the lent scratch is too short.
pub const LENT: u8 = 8;
/// A book against its rule, or a sheet that it does not have.
pub const BOOK: u8 = 9;
/// Marks of an agent or a chore that is not on the strands: the same number.
pub const ABSENT: u8 = BOOK;
/// A price list that is not one entry per chore, or a price out of range.
pub const PRICE: u8 = 10;
/// A lent record that the moves do not fit.
pub const RECORD: u8 = 11;
/// Strands whose agents or weights differ.
pub const STRANDS: u8 = 12;
/// A slack above the limit.
pub const SLACK: u8 = 13;
/// A difficult weight that is no multiple of the easy one.
pub const MULTIPLE: u8 = 14;
