//! A sheet without names and titles, which is all that its bytes tell.

use crate::sheet::{Mark, Sheet};

#[derive(Debug, Clone, PartialEq, Eq)]
pub struct Instance {
    pub easy: u16,
    pub difficult: u16,
    pub chores: usize,
    /// One per agent, of one mark per chore.
    pub rows: Vec<Vec<Mark>>,
}

impl From<&Sheet> for Instance {
    fn from(sheet: &Sheet) -> Self {
        let agents = sheet.agents.iter();
        Instance {
            easy: sheet.easy,
            difficult: sheet.difficult,
            chores: sheet.chores.len(),
            rows: agents.map(|agent| agent.marks.clone()).collect(),
        }
    }
}
