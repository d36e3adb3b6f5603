//! Text into a book of sheets, and what `shares` and `why` print back into
//! names; also old books, of before release 6.2.9, into packed ones.
//!
//! The text form, line by line:
//!
//! ```text
//! sheet Opening weekend       # a sheet begins; the title may be left out
//! weights 1 3                 # easy, difficult: 1 <= easy < difficult <= 1000
//! reel The Long Way Home      # one line per reel
//! reel Harbour
//! person Ada Novak: e d       # one line per person, one mark per reel
//! person Boris: de            # blanks between marks are optional
//! ```
//!
//! - Reels come before people. The weights may stand anywhere in their sheet.
//! - The last colon of a person's line ends the name.
//! - No two people, and no two reels, of a sheet have the same name.
//! - The four words and the marks may be in capitals. A run of blanks counts
//!   as one, also within names and titles.
//! - Blank lines are skipped. A `#` that begins a line, or that stands alone
//!   between blanks, begins a comment.
//!
//! The text and the prints speak of people and reels; the code says agent and
//! chore. Texts and prints count them from 1, everything inside from 0.

pub mod book;
pub mod bytes;
pub mod convert;
pub mod draft;
pub mod forms;
pub mod instance;
pub mod lines;
pub mod lists;
pub mod moves;
pub mod names;
pub mod old_sheet;
pub mod packed;
pub mod print;
pub mod refusal;
pub mod result;
pub mod run;
pub mod sheet;
pub mod text;
pub mod why;
