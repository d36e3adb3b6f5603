//! The share-out again, over flat lists: fast enough to time others by.
//!
//! A move takes one pass for the sums and looks at each agent and chore
//! together at most once. Best chores are told without ratios: by the report
//! (its H7) the least ratio is 1 / difficult for an agent in no group and
//! 1 / easy for the members of groups.

use crate::limits::MAX_AGENTS;
use crate::search::Move;
use crate::share_out::Worked;
use crate::sheet::Sheet;
use crate::sums::Sums;

const UNREACHED: usize = usize::MAX;

/// Agents and chores count from 0, groups from 1; group 0 is for none.
struct Plain {
    agents: usize,
    chores: usize,
    easy: u32,
    difficult: u32,
    /// What each chore costs each agent, agent by agent.
    cost: Vec<u32>,
    owner: Vec<u8>,
    price: Vec<u32>,
    entitled: Vec<bool>,
    group: [usize; MAX_AGENTS],
    groups: usize,
    held: Sums,
    distance: [usize; MAX_AGENTS],
    moves: u64,
}

/// Runs every round, until the stop in step 2b. The distances have a list of
/// their own, so the scratch is left alone.
pub fn work(sheet: &Sheet, _: &mut [u8]) -> Worked {
    let mut plain = Plain::open(sheet);
    loop {
        plain.step_2a();
        plain.step_2b();
        if plain.is_done() {
            return plain.worked();
        }
        plain.step_3();
    }
}

impl Plain {
    fn open(sheet: &Sheet) -> Self {
        let (agents, chores) = (sheet.agents, sheet.chores);
        let (easy, difficult) = (sheet.easy, sheet.difficult);
        let mut plain = Plain {
            agents,
            chores,
            easy,
            difficult,
            cost: Vec::with_capacity(agents * chores),
            owner: vec![0; chores],
            price: vec![difficult * difficult; chores],
            entitled: vec![false; chores],
            group: [0; MAX_AGENTS],
            groups: 0,
            held: Sums::default(),
            distance: [UNREACHED; MAX_AGENTS],
            moves: 0,
        };
        for agent in 0..agents {
            plain.open_row(sheet, agent);
        }
        plain.open_the_rest();
        plain.add_up();
        plain
    }

    /// Reads a row, all easy if it is all difficult. A chore that nobody
    /// liked so far still has its dear price.
    fn open_row(&mut self, sheet: &Sheet, agent: usize) {
        let dear = self.difficult * self.difficult;
        let only_difficult = sheet.difficult_marks(agent) == self.chores;
        for (chore, difficult) in sheet.marks(agent).enumerate() {
            if difficult && !only_difficult {
                self.cost.push(self.difficult);
                continue;
            }
            self.cost.push(self.easy);
            if self.price[chore] == dear {
                self.owner[chore] = agent as u8;
                self.price[chore] = self.easy * self.difficult;
            }
        }
    }

    /// What still has its dear price nobody likes: whoever holds the fewest of
    /// the chores before it gets it.
    fn open_the_rest(&mut self) {
        let dear = self.difficult * self.difficult;
        let mut held = [0; MAX_AGENTS];
        for (owner, &price) in self.owner.iter_mut().zip(&self.price) {
            if price == dear {
                let mut fewest = 0;
                for agent in 1..self.agents {
                    if held[agent] < held[fewest] {
                        fewest = agent;
                    }
                }
                *owner = fewest as u8;
            }
            held[usize::from(*owner)] += 1;
        }
    }

    fn worked(self) -> Worked {
        Worked {
            owners: self.owner.iter().map(|agent| agent + 1).collect(),
            prices: self.price,
            moves: self.moves,
            cuts: self.groups as u8,
        }
    }

    fn add_up(&mut self) {
        self.held.add_up(&self.owner, &self.price);
    }

    fn make(&mut self, step: Move) {
        self.owner[step.chore] = step.receiver as u8;
        self.moves += 1;
        self.add_up();
    }

    fn step_2a(&mut self) {
        for group in (1..self.groups).rev() {
            while let Some(step) = self.move_of_2a(group) {
                self.make(step);
            }
        }
    }

    fn move_of_2a(&self, group: usize) -> Option<Move> {
        let held = &self.held;
        let mut giver = None;
        let mut receiver = None;
        for agent in 0..self.agents {
            if self.group[agent] == group {
                if giver.is_none_or(|i: usize| held.up_to_one[agent] > held.up_to_one[i]) {
                    giver = Some(agent);
                }
            } else if self.group[agent] > group
                && receiver.is_none_or(|i: usize| held.sum[agent] < held.sum[i])
            {
                receiver = Some(agent);
            }
        }
        let (giver, receiver) = (giver?, receiver?);
        if held.up_to_one[giver] <= held.sum[receiver] {
            return None;
        }
        let goes = |&r: &usize| usize::from(self.owner[r]) == giver && !self.entitled[r];
        let chore = (0..self.chores).find(goes).expect("2a lacks its chore");
        Some(Move {
            giver,
            receiver,
            chore,
        })
    }

    fn step_2b(&mut self) {
        while let Some(step) = self.move_of_2b() {
            self.make(step);
        }
    }

    fn least(&self) -> u32 {
        let sums = self.held.sum[..self.agents].iter().copied();
        sums.min().expect("a sheet has an agent")
    }

    /// Leaves the distances of everyone reached up to the giver's ring.
    fn move_of_2b(&mut self) -> Option<Move> {
        let least = self.least();
        let mut unreached = 0;
        for agent in 0..self.agents {
            let starts = self.held.sum[agent] == least;
            self.distance[agent] = if starts { 0 } else { UNREACHED };
            unreached += usize::from(!starts);
        }
        let mut link = [(0, 0); MAX_AGENTS];
        let mut ring = 0;
        while unreached > 0 {
            let found = self.next_ring(ring, unreached, &mut link);
            ring += 1;
            let gives = |&i: &usize| self.distance[i] == ring && self.held.up_to_one[i] > least;
            if let Some(giver) = (0..self.agents).find(gives) {
                let (receiver, chore) = link[giver];
                return Some(Move {
                    giver,
                    receiver,
                    chore,
                });
            }
            if found == 0 {
                break;
            }
            unreached -= found;
        }
        None
    }

    /// Marks those one further than `ring` and counts them, until nobody is
    /// left to reach. Receivers and chores go upwards, so the first link to a
    /// giver has the lowest of both.
    fn next_ring(
        &mut self,
        ring: usize,
        unreached: usize,
        link: &mut [(usize, usize); MAX_AGENTS],
    ) -> usize {
        let mut found = 0;
        for receiver in 0..self.agents {
            if self.distance[receiver] != ring {
                continue;
            }
            let rate = if self.group[receiver] == 0 {
                self.difficult
            } else {
                self.easy
            };
            let costs = &self.cost[receiver * self.chores..(receiver + 1) * self.chores];
            let chores = costs.iter().zip(&self.price).zip(&self.owner);
            for (chore, ((cost, &price), &giver)) in chores.enumerate() {
                let giver = usize::from(giver);
                if self.distance[giver] == UNREACHED && cost * rate == price {
                    self.distance[giver] = ring + 1;
                    link[giver] = (receiver, chore);
                    found += 1;
                    if found == unreached {
                        return found;
                    }
                }
            }
        }
        found
    }

    fn is_done(&self) -> bool {
        let least = self.least();
        let mut all = self.held.up_to_one[..self.agents].iter();
        all.all(|&up_to_one| up_to_one <= least)
    }

    /// Whoever the last search reached becomes a group.
    fn step_3(&mut self) {
        self.groups += 1;
        for agent in 0..self.agents {
            if self.distance[agent] != UNREACHED {
                self.group[agent] = self.groups;
            }
        }
        for (chore, &owner) in self.owner.iter().enumerate() {
            if self.distance[usize::from(owner)] != UNREACHED {
                self.entitled[chore] = true;
                self.price[chore] = self.price[chore] * self.easy / self.difficult;
            }
        }
        self.add_up();
    }
}
