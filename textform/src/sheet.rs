//! A sheet as the text tells it, and the limits of the formats.

/// Agents of a sheet: 1 to this.
pub const MAX_AGENTS: usize = 32;
/// Chores of a sheet: 0 to this.
pub const MAX_CHORES: usize = 4_000;
/// The difficult weight is at most this.
pub const MAX_WEIGHT: u16 = 1_000;
/// Sheets of a book: 1 to this.
pub const MAX_SHEETS: usize = 16;
/// Bytes of a book: 1 to this.
pub const MAX_BOOK_BYTES: usize = 65_535;

pub fn are_weights(easy: u16, difficult: u16) -> bool {
    1 <= easy && easy < difficult && difficult <= MAX_WEIGHT
}

#[derive(Debug, Clone, Copy, PartialEq, Eq)]
pub enum Mark {
    Easy,
    Difficult,
}

impl Mark {
    pub fn of(letter: char) -> Option<Self> {
        match letter {
            'e' | 'E' => Some(Mark::Easy),
            'd' | 'D' => Some(Mark::Difficult),
            _ => None,
        }
    }

    pub fn word(self) -> &'static str {
        match self {
            Mark::Easy => "easy",
            Mark::Difficult => "difficult",
        }
    }
}

#[derive(Debug, Clone, PartialEq, Eq)]
pub struct Agent {
    pub name: String,
    /// One per chore of the sheet.
    pub marks: Vec<Mark>,
}

#[derive(Debug, Clone, PartialEq, Eq)]
pub struct Sheet {
    /// The line on which the sheet begins.
    pub line: usize,
    /// Empty if left out.
    pub title: String,
    pub easy: u16,
    pub difficult: u16,
    /// The chores' titles.
    pub chores: Vec<String>,
    pub agents: Vec<Agent>,
}
