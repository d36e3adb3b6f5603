//! What each chore costs each agent.

use crate::sheet::Sheet;

/// Costs by agent and chore, both counted from 0.
#[derive(Debug, Clone)]
pub struct Costs {
    pub agents: usize,
    pub chores: usize,
    pub easy: u64,
    pub difficult: u64,
    cost: Vec<u64>,
}

impl Costs {
    /// Costs as the marks say: what the checks judge by.
    pub fn as_marked(sheet: &Sheet) -> Self {
        Self::with(sheet, |agent, chore| sheet.is_difficult(agent, chore))
    }

    /// Costs as the share-out reads them: an all-difficult row is all easy.
    pub fn as_read(sheet: &Sheet) -> Self {
        let only_difficult: Vec<bool> = (0..sheet.agents)
            .map(|agent| sheet.marks(agent).all(|difficult| difficult))
            .collect();
        Self::with(sheet, |agent, chore| {
            sheet.is_difficult(agent, chore) && !only_difficult[agent]
        })
    }

    fn with(sheet: &Sheet, difficult: impl Fn(usize, usize) -> bool) -> Self {
        let mut costs = Costs {
            agents: sheet.agents,
            chores: sheet.chores,
            easy: u64::from(sheet.easy),
            difficult: u64::from(sheet.difficult),
            cost: Vec::with_capacity(sheet.agents * sheet.chores),
        };
        for agent in 0..costs.agents {
            for chore in 0..costs.chores {
                let weight = if difficult(agent, chore) {
                    costs.difficult
                } else {
                    costs.easy
                };
                costs.cost.push(weight);
            }
        }
        costs
    }

    pub fn of(&self, agent: usize, chore: usize) -> u64 {
        self.cost[agent * self.chores + chore]
    }

    pub fn finds_easy(&self, agent: usize, chore: usize) -> bool {
        self.of(agent, chore) == self.easy
    }
}
