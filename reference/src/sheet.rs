//! A sheet as bytes, and its own refusals.

use crate::limits::{MAX_AGENTS, MAX_CHORES, MAX_WEIGHT};
use crate::refusal;

pub const HEADER_BYTES: usize = 7;

/// Bytes of a sheet at its limits.
pub const MAX_SHEET_BYTES: usize = HEADER_BYTES + MAX_AGENTS * row_bytes(MAX_CHORES);

/// Bytes of a row: a bit for each mark, and the next row on a fresh byte.
pub const fn row_bytes(chores: usize) -> usize {
    chores.div_ceil(8)
}

/// A sheet that breaks no rule.
#[derive(Debug, Clone, Copy)]
pub struct Sheet<'a> {
    pub agents: usize,
    pub chores: usize,
    pub easy: u32,
    pub difficult: u32,
    /// All rows, one after the other.
    marks: &'a [u8],
}

impl<'a> Sheet<'a> {
    /// The sheet, or the number of the first rule that it breaks.
    pub fn parse(bytes: &'a [u8]) -> Result<Self, u8> {
        if bytes.len() < HEADER_BYTES {
            return Err(refusal::LENGTH);
        }
        let (header, marks) = bytes.split_at(HEADER_BYTES);
        let sheet = Sheet {
            agents: usize::from(header[0]),
            chores: usize::from(two_bytes(header[1], header[2])),
            easy: two_bytes(header[3], header[4]).into(),
            difficult: two_bytes(header[5], header[6]).into(),
            marks,
        };
        sheet.check()?;
        Ok(sheet)
    }

    fn check(&self) -> Result<(), u8> {
        if self.agents == 0 || self.agents > MAX_AGENTS {
            return Err(refusal::AGENTS);
        }
        if self.chores > MAX_CHORES {
            return Err(refusal::CHORES);
        }
        if self.easy == 0 || self.difficult <= self.easy || self.difficult > MAX_WEIGHT {
            return Err(refusal::WEIGHTS);
        }
        if self.marks.len() != self.agents * row_bytes(self.chores) {
            return Err(refusal::LENGTH);
        }
        if (0..self.agents).any(|agent| self.goes_on(agent)) {
            return Err(refusal::BIT);
        }
        Ok(())
    }

    /// Whether a bit after an agent's last mark is set.
    fn goes_on(&self, agent: usize) -> bool {
        let bits = 8 * row_bytes(self.chores);
        (self.chores..bits).any(|place| self.bit(agent, place) == 1)
    }

    pub fn is_difficult(&self, agent: usize, chore: usize) -> bool {
        self.bit(agent, chore) == 1
    }

    /// For each chore, whether an agent finds it difficult.
    pub fn marks(&self, agent: usize) -> impl Iterator<Item = bool> + '_ {
        (0..self.chores).map(move |chore| self.is_difficult(agent, chore))
    }

    /// How many chores an agent finds difficult, by the ones of its row.
    pub fn difficult_marks(&self, agent: usize) -> usize {
        let ones = self.row(agent).iter().map(|byte| byte.count_ones());
        ones.sum::<u32>() as usize
    }

    /// What a chore costs an agent, as marked. Without a branch.
    pub fn cost(&self, agent: usize, chore: usize) -> u32 {
        self.easy + (self.difficult - self.easy) * self.bit(agent, chore)
    }

    /// What each chore costs an agent, as marked.
    pub fn costs(&self, agent: usize) -> impl Iterator<Item = u32> + '_ {
        (0..self.chores).map(move |chore| self.cost(agent, chore))
    }

    /// The one place where marks are read: 1 for difficult, high bit first.
    fn bit(&self, agent: usize, place: usize) -> u32 {
        let byte = self.row(agent)[place / 8];
        u32::from(byte >> (7 - place % 8) & 1)
    }

    /// The bytes of an agent's row.
    pub fn row(&self, agent: usize) -> &'a [u8] {
        let bytes = row_bytes(self.chores);
        &self.marks[agent * bytes..][..bytes]
    }
}

fn two_bytes(high: u8, low: u8) -> u16 {
    u16::from_be_bytes([high, low])
}
