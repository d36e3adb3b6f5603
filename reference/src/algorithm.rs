//! Algorithm 1: the opening, steps 2a and 2b, and the cut of step 3.

use crate::costs::Costs;
use crate::line::Line;
use crate::pricing::{best_chores, holdings, least_sum, Holding};
use crate::search::{search, Move};
use std::cmp::Reverse;

/// The step that makes a move, by its number in a record.
#[derive(Debug, Clone, Copy, PartialEq, Eq)]
pub enum Step {
    TwoA = 1,
    TwoB = 2,
}

/// A move that was made, and when. Rounds count from 1.
#[derive(Debug, Clone, Copy, PartialEq, Eq)]
pub struct Made {
    pub handed: Move,
    pub round: usize,
    pub step: Step,
}

/// The state of a run. Agents and chores count from 0.
#[derive(Debug)]
pub struct Run<'a> {
    costs: &'a Costs,
    pub owner: Vec<usize>,
    pub price: Vec<u64>,
    entitled: Vec<bool>,
    /// The members of each cut group; round r's cut makes the r-th.
    groups: Vec<Vec<usize>>,
    /// Whoever the last search reached.
    line: Line<'a>,
    pub moves: u64,
}

impl<'a> Run<'a> {
    /// Runs every round, until the stop in step 2b, and tells of every move.
    pub fn to_the_end(
        costs: &'a Costs,
        scratch: &'a mut [u8],
        tell: &mut impl FnMut(Made),
    ) -> Self {
        let (owner, price) = opening(costs);
        let mut run = Run {
            costs,
            owner,
            price,
            entitled: vec![false; costs.chores],
            groups: Vec::new(),
            line: Line::new(scratch),
            moves: 0,
        };
        loop {
            run.step_2a(tell);
            run.step_2b(tell);
            if run.is_price_envy_free_up_to_one() {
                return run;
            }
            run.step_3();
        }
    }

    pub fn cuts(&self) -> usize {
        self.groups.len()
    }

    fn round(&self) -> usize {
        self.cuts() + 1
    }

    /// In round k: groups k-2 down to 1, each against the later groups.
    fn step_2a(&mut self, tell: &mut impl FnMut(Made)) {
        for group in (1..=self.round().saturating_sub(2)).rev() {
            while let Some((giver, receiver)) = self.pair_of_2a(group) {
                let chore = self.lowest_not_entitled(giver);
                let due = Move {
                    giver,
                    receiver,
                    chore,
                };
                tell(self.make(due, Step::TwoA));
            }
        }
    }

    /// The giver and the receiver, if a move between them is due.
    fn pair_of_2a(&self, group: usize) -> Option<(usize, usize)> {
        let held = self.holdings();
        let (earlier, later) = self.groups.split_at(group);
        let givers = earlier[group - 1].iter().copied();
        let receivers = later.iter().flatten().copied();
        // The agent's number settles ties.
        let giver = givers.min_by_key(|&i| (Reverse(held[i].price_up_to_one()), i))?;
        let receiver = receivers.min_by_key(|&i| (held[i].sum, i))?;
        let due = held[giver].price_up_to_one() > held[receiver].sum;
        due.then_some((giver, receiver))
    }

    fn lowest_not_entitled(&self, giver: usize) -> usize {
        (0..self.costs.chores)
            .find(|&chore| self.owner[chore] == giver && !self.entitled[chore])
            .expect("step 2a lacks its chore: all that the giver holds are entitled")
    }

    /// Moves until no giver is reachable; whoever is reachable then is in line.
    fn step_2b(&mut self, tell: &mut impl FnMut(Made)) {
        // Prices stay as they are during a step, so best chores do too.
        let best: Vec<Vec<usize>> = (0..self.costs.agents)
            .map(|agent| best_chores(self.costs, &self.price, agent))
            .collect();
        while let Some(due) = search(&best, &self.owner, &self.holdings(), &mut self.line) {
            tell(self.make(due, Step::TwoB));
        }
    }

    fn is_price_envy_free_up_to_one(&self) -> bool {
        let held = self.holdings();
        let least = least_sum(&held);
        held.iter()
            .all(|holding| holding.price_up_to_one() <= least)
    }

    /// The reachable agents become a group; what they hold gets cheaper.
    fn step_3(&mut self) {
        for chore in 0..self.costs.chores {
            if self.line.has(self.owner[chore]) {
                self.entitled[chore] = true;
                let scaled = self.price[chore] * self.costs.easy;
                assert!(
                    scaled.is_multiple_of(self.costs.difficult),
                    "step 3 cuts a price to a number that is not whole"
                );
                self.price[chore] = scaled / self.costs.difficult;
            }
        }
        let members = (0..self.costs.agents).filter(|&agent| self.line.has(agent));
        self.groups.push(members.collect());
    }

    fn make(&mut self, due: Move, step: Step) -> Made {
        assert_eq!(self.owner[due.chore], due.giver, "giver lacks the chore");
        self.owner[due.chore] = due.receiver;
        self.moves += 1;
        Made {
            handed: due,
            round: self.round(),
            step,
        }
    }

    fn holdings(&self) -> Vec<Holding> {
        holdings(self.costs.agents, &self.owner, &self.price)
    }
}

/// The owners and prices before round 1. Every chore counts for the agent it
/// opened with, liked or not.
pub fn opening(costs: &Costs) -> (Vec<usize>, Vec<u64>) {
    let (easy, difficult) = (costs.easy, costs.difficult);
    let mut held = vec![0; costs.agents];
    (0..costs.chores)
        .map(|chore| {
            let liking = (0..costs.agents).find(|&agent| costs.finds_easy(agent, chore));
            let (agent, price) = match liking {
                Some(agent) => (agent, easy * difficult),
                None => (holder_of_fewest(&held), difficult * difficult),
            };
            held[agent] += 1;
            (agent, price)
        })
        .unzip()
}

/// By the number of chores that each agent holds.
fn holder_of_fewest(held: &[usize]) -> usize {
    // The agent's number settles ties.
    let fewest = (0..held.len()).min_by_key(|&agent| (held[agent], agent));
    fewest.expect("a sheet has an agent")
}
