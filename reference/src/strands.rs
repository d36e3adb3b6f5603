//! Two strands on one desk: their sheets joined, and an agent's marks shown out
//! of whichever of the two holds a chore.

use crate::compose;
use crate::limits::MAX_CHORES;
use crate::refusal;
use crate::sheet::Sheet;

#[derive(Debug, Clone, Copy, PartialEq, Eq)]
pub enum Join {
    Refused(u8),
    /// The joined sheet is the first `written` bytes of the lent list.
    Joined {
        written: usize,
    },
}

/// Which of the two sheets, by its number.
#[derive(Debug, Clone, Copy, PartialEq, Eq)]
pub enum Strand {
    First = 1,
    Second = 2,
}

/// The bytes of an agent's row, as that stretch of the strand's own sheet.
#[derive(Debug, Clone, Copy, PartialEq, Eq)]
pub struct Shown<'a> {
    pub strand: Strand,
    pub marks: &'a [u8],
}

/// Two sheets that can be joined.
struct Strands<'a> {
    first: Sheet<'a>,
    second: Sheet<'a>,
}

impl<'a> Strands<'a> {
    /// The first sheet is judged before the second, and each before the two.
    fn parse(first: &'a [u8], second: &'a [u8]) -> Result<Self, u8> {
        let first = Sheet::parse(first)?;
        let second = Sheet::parse(second)?;
        let common = |sheet: &Sheet| (sheet.agents, sheet.easy, sheet.difficult);
        if common(&first) != common(&second) {
            return Err(refusal::STRANDS);
        }
        let strands = Strands { first, second };
        if strands.chores() > MAX_CHORES {
            return Err(refusal::CHORES);
        }
        Ok(strands)
    }

    fn agents(&self) -> usize {
        self.first.agents
    }

    fn chores(&self) -> usize {
        self.first.chores + self.second.chores
    }

    /// Agent by agent, the second strand's marks after the first's.
    fn joined(&self) -> Vec<u8> {
        let Sheet {
            easy, difficult, ..
        } = self.first;
        let mut bytes = compose::header(self.agents(), self.chores(), easy, difficult).to_vec();
        for agent in 0..self.agents() {
            let marks = self.first.marks(agent).chain(self.second.marks(agent));
            bytes.extend(compose::packed(marks));
        }
        bytes
    }

    /// Agents and chores count from 0 here, chores through both strands.
    fn shown(&self, agent: usize, chore: usize) -> Shown<'a> {
        let (strand, sheet) = if chore < self.first.chores {
            (Strand::First, &self.first)
        } else {
            (Strand::Second, &self.second)
        };
        let marks = sheet.row(agent);
        Shown { strand, marks }
    }
}

/// Refused: nothing lent changes. Joined: the joined sheet is at the start of
/// the lent list, whose rest is kept.
pub fn join(first: &[u8], second: &[u8], joined: &mut [u8]) -> Join {
    let sheet = match Strands::parse(first, second) {
        Ok(strands) => strands.joined(),
        Err(number) => return Join::Refused(number),
    };
    let written = sheet.len();
    let Some(start) = joined.get_mut(..written) else {
        return Join::Refused(refusal::LENT);
    };
    start.copy_from_slice(&sheet);
    Join::Joined { written }
}

/// The marks of an agent in the strand that holds a chore, both counted from 1,
/// chores as on the joined sheet.
pub fn show_marks<'a>(
    first: &'a [u8],
    second: &'a [u8],
    agent: usize,
    chore: usize,
) -> Result<Shown<'a>, u8> {
    let strands = Strands::parse(first, second)?;
    let agents = 1..=strands.agents();
    let chores = 1..=strands.chores();
    if !agents.contains(&agent) || !chores.contains(&chore) {
        return Err(refusal::ABSENT);
    }
    Ok(strands.shown(agent - 1, chore - 1))
}
