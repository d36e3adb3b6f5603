//! One input of each kind through the proved library and the second program,
//! with every answer and every byte that was lent compared. Tests take many of
//! them and look at what was among them; so does the soak.

mod book_answers;
pub mod books;
pub mod joins;
pub mod list_checks;
pub mod lookups;
pub mod marks;
pub mod measured_lists;
pub mod measures;
pub mod price_checks;
pub mod records;
pub mod share_outs;
