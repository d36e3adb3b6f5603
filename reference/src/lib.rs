//! The second program: the share-out of easy and difficult chores, and the
//! checks of allocations and prices, written plainly from the scope document,
//! with the opening, a record of the moves, the cost of a mark, the joining of
//! two sheets, packed marks, the scratch, the slack, everyone's own measure and
//! lists that respect it by the requests that came later.
//!
//! Where those documents say person, reel, list, even, best reel, price-one,
//! ring, cut, split and pile, the code says agent, chore, allocation (its bytes:
//! owners), EF1, best chore, price up to one, distance, price cut, partition and
//! bundle. Bytes, verdicts and prints count agents and chores from 1; everything
//! inside from 0.

pub mod algorithm;
pub mod book;
pub mod cases;
pub mod checks;
pub mod compose;
pub mod costs;
pub mod fairness;
pub mod limits;
pub mod line;
pub mod measured_list;
pub mod measures;
pub mod output;
pub mod plain;
pub mod plain_checks;
pub mod price_bytes;
pub mod pricing;
pub mod record;
pub mod refusal;
pub mod search;
pub mod share_out;
pub mod sheet;
pub mod strands;
pub mod sums;
pub mod waste;
pub mod why;

pub use book::{allocate_book, lookup, BookShareOut, SheetShareOut, Tally};
pub use checks::{check_list, check_prices, dominates, is_small_enough, ListVerdict, PriceVerdict};
pub use measured_list::measured_list;
pub use measures::measures;
pub use share_out::{allocate, ShareOut};
pub use strands::{join, show_marks, Join, Shown, Strand};
