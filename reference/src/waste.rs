//! Waste on a sheet of any size, by a path along which chores are passed on.
//!
//! Chores are called easy or difficult here by their owners' marks, and whoever
//! holds a difficult one is burdened. An allocation is wasteful exactly when
//! another one has more easy chores, and no more of them with anybody who is not
//! burdened now.
//!
//! Whatever dominates is such an allocation: of as many chores it costs less in
//! all, so more are easy, and whoever pays for easy ones only would pay more for
//! more of them.
//!
//! If there is such an allocation then, as in any matching, a path leads from a
//! difficult chore to a burdened agent. Each agent on it finds the chore in hand
//! easy, takes it and passes on one of its own, all of them easy; only the last
//! one, the first who is burdened, keeps those. It hands a difficult chore to
//! the owner of the first chore, or is that owner itself. So it pays easy for
//! difficult, and nobody pays more.

use crate::limits::MAX_AGENTS;
use crate::sheet::Sheet;

/// An allocation that dominates `owner`, if there is one. Owners count from 0.
pub fn dominating(sheet: &Sheet, owner: &[u8]) -> Option<Vec<u8>> {
    let mut search = Search::open(sheet, owner);
    let end = search.end_of_path()?;
    Some(search.passed_on(end))
}

struct Search<'a> {
    sheet: &'a Sheet<'a>,
    owner: &'a [u8],
    burdened: [bool; MAX_AGENTS],
    /// The chores that somebody may take: those that are difficult for their
    /// owners, then those of each agent reached.
    offered: Vec<usize>,
    /// The chore that each agent reached would take.
    taken: [Option<usize>; MAX_AGENTS],
}

impl<'a> Search<'a> {
    fn open(sheet: &'a Sheet, owner: &'a [u8]) -> Self {
        let mut search = Search {
            sheet,
            owner,
            burdened: [false; MAX_AGENTS],
            offered: Vec::with_capacity(sheet.chores),
            taken: [None; MAX_AGENTS],
        };
        for chore in 0..sheet.chores {
            let agent = search.owner_of(chore);
            if sheet.is_difficult(agent, chore) {
                search.burdened[agent] = true;
                search.offered.push(chore);
            }
        }
        search
    }

    fn owner_of(&self, chore: usize) -> usize {
        usize::from(self.owner[chore])
    }

    /// The first burdened agent that is reached.
    fn end_of_path(&mut self) -> Option<usize> {
        let mut next = 0;
        while let Some(&chore) = self.offered.get(next) {
            if let Some(end) = self.offer(chore) {
                return Some(end);
            }
            next += 1;
        }
        None
    }

    /// Reaches whoever finds the chore easy, up to one who is burdened.
    fn offer(&mut self, chore: usize) -> Option<usize> {
        for agent in 0..self.sheet.agents {
            if self.taken[agent].is_some() || self.sheet.is_difficult(agent, chore) {
                continue;
            }
            self.taken[agent] = Some(chore);
            if self.burdened[agent] {
                return Some(agent);
            }
            let held = (0..self.sheet.chores).filter(|&r| usize::from(self.owner[r]) == agent);
            self.offered.extend(held);
        }
        None
    }

    /// The allocation after the path to `end`, gone through backwards. Of the
    /// owners on it only the first chore's is burdened.
    fn passed_on(&self, end: usize) -> Vec<u8> {
        let mut owner = self.owner.to_vec();
        let mut taker = end;
        let first_owner = loop {
            let chore = self.taken[taker].expect("whoever is on the path takes a chore");
            let giver = self.owner_of(chore);
            owner[chore] = taker as u8;
            if self.burdened[giver] {
                break giver;
            }
            taker = giver;
        };
        if first_owner != end {
            owner[self.difficult_chore_of(end)] = first_owner as u8;
        }
        owner
    }

    fn difficult_chore_of(&self, agent: usize) -> usize {
        let is_one = |&r: &usize| self.owner_of(r) == agent && self.sheet.is_difficult(agent, r);
        let mut chores = 0..self.sheet.chores;
        chores.find(is_one).expect("the agent is burdened")
    }
}
