//! What the share-out of a book tells of its sheets, in lists that are lent.

use crate::lent::Lent;
use crate::random::Random;
use crate::{BookAnswers, BOOK_SHEETS};
use reference::{BookShareOut, SheetShareOut};

/// The five lists of answers.
pub struct Answers {
    refusals: Lent<u8>,
    moves: Lent<u64>,
    cuts: Lent<u8>,
    firsts: Lent<u32>,
    tally: Lent<u64>,
}

impl Answers {
    pub fn new(random: &mut Random) -> Self {
        Answers {
            refusals: Lent::bytes(random, BOOK_SHEETS),
            moves: Lent::new(BOOK_SHEETS, || random.word()),
            cuts: Lent::bytes(random, BOOK_SHEETS),
            firsts: Lent::new(BOOK_SHEETS, || random.word() as u32),
            tally: Lent::new(2, || random.word()),
        }
    }

    pub fn lend(&mut self) -> BookAnswers<'_> {
        BookAnswers {
            refusals: self.refusals.array(),
            moves: self.moves.array(),
            cuts: self.cuts.array(),
            firsts: self.firsts.array(),
            tally: self.tally.array(),
        }
    }

    fn are_kept(&self) -> bool {
        self.refusals.holds(self.refusals.at_first())
            && self.moves.holds(self.moves.at_first())
            && self.cuts.holds(self.cuts.at_first())
            && self.firsts.holds(self.firsts.at_first())
            && self.tally.holds(self.tally.at_first())
    }

    /// A refused sheet tells its number alone. Entries from the count of sheets on are as they were, and with a refusal all of them.
    pub fn tell(&self, answer: &BookShareOut) -> bool {
        let (sheets, total) = match answer {
            BookShareOut::Refused(_) => return self.are_kept(),
            BookShareOut::Shared { sheets, total } => (sheets, total),
        };
        let mut refusals = self.refusals.at_first().to_vec();
        let mut moves = self.moves.at_first().to_vec();
        let mut cuts = self.cuts.at_first().to_vec();
        let mut firsts = self.firsts.at_first().to_vec();
        for (i, sheet) in sheets.iter().enumerate() {
            match *sheet {
                SheetShareOut::Refused(number) => refusals[i] = number,
                SheetShareOut::Shared {
                    moves: of_moves,
                    cuts: of_cuts,
                    first,
                } => {
                    (refusals[i], moves[i], cuts[i], firsts[i]) =
                        (0, of_moves, of_cuts, first as u32);
                }
            }
        }
        self.refusals.holds(&refusals)
            && self.moves.holds(&moves)
            && self.cuts.holds(&cuts)
            && self.firsts.holds(&firsts)
            && self.tally.holds(&[total.moves, total.cuts])
    }
}
