//! One input and what both programs answered.

use crate::comparisons::joins::Joined;
use crate::comparisons::list_checks::SLACKS;
use crate::comparisons::marks::Marks;
use crate::comparisons::measured_lists::Listed;
use crate::comparisons::measures::{self, Measured};
use crate::comparisons::records::Faulty;
use crate::lists::Given;
use crate::strands::Pair;
use reference::{BookShareOut, ListVerdict, PriceVerdict, ShareOut};
use std::fmt::{self, Display, Formatter};

#[derive(Debug, Clone, Copy, PartialEq, Eq, PartialOrd, Ord)]
pub enum Answer {
    /// By a word for it.
    Told(&'static str),
    /// By its number.
    Refused(u8),
}

const SHARED_OUT: &str = "shared out";

impl Answer {
    /// Number 0 is for what is not refused.
    pub fn numbered(number: u8, told: &'static str) -> Self {
        match number {
            0 => Answer::Told(told),
            number => Answer::Refused(number),
        }
    }
}

impl Display for Answer {
    fn fmt(&self, to: &mut Formatter) -> fmt::Result {
        match self {
            Answer::Told(told) => write!(to, "{told}"),
            Answer::Refused(number) => write!(to, "refused {number}"),
        }
    }
}

impl From<ShareOut> for Answer {
    fn from(answer: ShareOut) -> Self {
        match answer {
            ShareOut::Refused(number) => Answer::Refused(number),
            ShareOut::Shared { .. } => Answer::Told(SHARED_OUT),
        }
    }
}

impl From<BookShareOut> for Answer {
    fn from(answer: BookShareOut) -> Self {
        match answer {
            BookShareOut::Refused(number) => Answer::Refused(number),
            BookShareOut::Shared { .. } => Answer::Told(SHARED_OUT),
        }
    }
}

impl From<ListVerdict> for Answer {
    fn from(verdict: ListVerdict) -> Self {
        match verdict {
            ListVerdict::Refused(number) => Answer::Refused(number),
            ListVerdict::Holds => Answer::Told("holds"),
            ListVerdict::Unfair(..) => Answer::Told("unfair"),
            ListVerdict::Wasteful => Answer::Told("wasteful"),
            ListVerdict::Undecided => panic!("the library decides every list"),
        }
    }
}

impl From<PriceVerdict> for Answer {
    fn from(verdict: PriceVerdict) -> Self {
        match verdict {
            PriceVerdict::Refused(number) => Answer::Refused(number),
            PriceVerdict::OffPrice(_) => Answer::Told("off price"),
            PriceVerdict::PriceEnvy(..) => Answer::Told("price envy"),
            PriceVerdict::Accepted => Answer::Told("accepted"),
        }
    }
}

impl From<Measured> for Answer {
    fn from(answer: Measured) -> Self {
        Answer::numbered(measures::number(&answer), "measured")
    }
}

/// Where an input takes several calls, the answer is that of one of them.
#[derive(Debug)]
pub struct Case {
    pub input: Vec<u8>,
    pub answer: Answer,
}

impl Case {
    pub fn new(input: Vec<u8>, answer: impl Into<Answer>) -> Self {
        let answer = answer.into();
        Case { input, answer }
    }

    /// A sheet that is shared out with every record that its moves fit.
    pub fn of_record((sheet, _): (Vec<u8>, Vec<u8>)) -> Self {
        Case::new(sheet, Answer::Told(SHARED_OUT))
    }

    /// A book's first sheet, looked up.
    pub fn of_lookup((book, number): (Vec<u8>, u8)) -> Self {
        Case::new(book, Answer::numbered(number, "found"))
    }

    /// A list at every slack, with the verdict at the one given.
    pub fn of_slacks((given, verdicts): (Given, [ListVerdict; SLACKS])) -> Self {
        let verdict = verdicts[usize::from(given.slack)];
        (given, verdict).into()
    }

    fn of_pair(pair: Pair, answer: Answer) -> Self {
        Case::new([pair.first, pair.second].concat(), answer)
    }
}

/// A sheet or a book.
impl<A: Into<Answer>> From<(Vec<u8>, A)> for Case {
    fn from((input, answer): (Vec<u8>, A)) -> Self {
        Case::new(input, answer)
    }
}

impl<A: Into<Answer>> From<(Given, A)> for Case {
    fn from((given, answer): (Given, A)) -> Self {
        let slack = vec![given.slack];
        let input = [given.sheet, given.owners, slack, given.prices];
        Case::new(input.concat(), answer)
    }
}

impl From<Faulty> for Case {
    fn from(faulty: Faulty) -> Self {
        let answer = Answer::numbered(faulty.number, SHARED_OUT);
        Case::new(faulty.sheet, answer)
    }
}

impl From<Joined> for Case {
    fn from(joined: Joined) -> Self {
        let answer = Answer::numbered(joined.number(), "joined");
        Case::of_pair(joined.pair, answer)
    }
}

impl From<Listed> for Case {
    fn from(listed: Listed) -> Self {
        let answer = Answer::numbered(listed.number(), "listed");
        Case::new(listed.sheet, answer)
    }
}

impl From<Marks> for Case {
    fn from(marks: Marks) -> Self {
        let answer = Answer::numbered(marks.number(), "shown");
        Case::of_pair(marks.pair, answer)
    }
}
