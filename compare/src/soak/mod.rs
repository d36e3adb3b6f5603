//! The comparisons with the second program on any number of inputs. An input is
//! made by a generator of its own, which the seed, the kind's name and the
//! input's number decide: not the inputs before it, nor their count, nor the
//! threads, nor the other kinds.

mod case;
pub mod kinds;
mod portions;
mod run;
mod tally;

pub use case::{Answer, Case};
pub use kinds::{Kind, KINDS};
pub use portions::portions;
pub use run::{compared, run, Difference};
pub use tally::Tally;
