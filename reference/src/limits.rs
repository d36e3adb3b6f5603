//! Every limit of the formats and calls, by name.

/// Agents of a sheet: 1 to this.
pub const MAX_AGENTS: usize = 32;
/// Chores of a sheet: 0 to this.
pub const MAX_CHORES: usize = 4_000;
/// The difficult weight is at most this.
pub const MAX_WEIGHT: u32 = 1_000;
/// A price handed to the price check is 1 to this.
pub const MAX_PRICE: u32 = 1_000_000;
/// The slack of the list check: 0 to this.
pub const MAX_SLACK: u8 = 8;
/// Scratch bytes that the share-out must be lent: for each agent its distance
/// and a place in line.
pub const MIN_SCRATCH: usize = 2 * MAX_AGENTS;
/// Sheets of a book: 1 to this.
pub const MAX_SHEETS: usize = 16;
/// Bytes of a book: 1 to this.
pub const MAX_BOOK_BYTES: usize = 65_535;
/// Entries that each long list of a book must have.
pub const BOOK_ENTRIES: usize = MAX_SHEETS * MAX_CHORES;
/// Bytes of the record that `why` lends for each sheet: 20,000 moves.
pub const WHY_RECORD_BYTES: usize = 120_000;
/// All allocations are tried for waste only where there are at most so many.
pub const MAX_ALLOCATIONS_TRIED: usize = 2_000_000;
/// All partitions are tried for a measure only where there are at most so many.
pub const MAX_PARTITIONS_TRIED: usize = 4_096;
