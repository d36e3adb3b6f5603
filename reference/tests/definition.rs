//! Whole runs against a slow one that picks everything by its definition.
//! The search of step 2b has a test of its own.

mod common;

use common::Random;
use reference::algorithm::{Made, Run, Step};
use reference::costs::Costs;
use reference::limits::MIN_SCRATCH;
use reference::line::Line;
use reference::pricing::holdings;
use reference::search::{search, Move};
use reference::sheet::Sheet;
use std::cmp::Reverse;
use std::collections::BTreeSet;

struct Slow<'a> {
    costs: &'a Costs,
    owner: Vec<usize>,
    price: Vec<u64>,
    entitled: BTreeSet<usize>,
    groups: Vec<BTreeSet<usize>>,
    made: Vec<Made>,
}

impl<'a> Slow<'a> {
    fn open(costs: &'a Costs) -> Self {
        let mut slow = Slow {
            costs,
            owner: vec![0; costs.chores],
            price: vec![costs.difficult * costs.difficult; costs.chores],
            entitled: BTreeSet::new(),
            groups: Vec::new(),
            made: Vec::new(),
        };
        // Downwards, so that the lowest agent who likes a chore comes last.
        for agent in (0..costs.agents).rev() {
            for chore in 0..costs.chores {
                if costs.of(agent, chore) == costs.easy {
                    slow.owner[chore] = agent;
                    slow.price[chore] = costs.easy * costs.difficult;
                }
            }
        }
        for chore in 0..costs.chores {
            if slow.price[chore] == costs.difficult * costs.difficult {
                slow.owner[chore] = slow.holds_fewest_before(chore);
            }
        }
        slow
    }

    /// The lowest agent with no more of the chores before this one than any.
    fn holds_fewest_before(&self, chore: usize) -> usize {
        let count = |i: usize| self.owner[..chore].iter().filter(|&&j| j == i).count();
        let agents = 0..self.costs.agents;
        let has_fewest = |&i: &usize| agents.clone().all(|j| count(i) <= count(j));
        agents.clone().find(has_fewest).unwrap()
    }

    fn prices_of(&self, agent: usize) -> Vec<u64> {
        let held = (0..self.costs.chores).filter(|&chore| self.owner[chore] == agent);
        held.map(|chore| self.price[chore]).collect()
    }

    fn sum(&self, agent: usize) -> u64 {
        self.prices_of(agent).iter().sum()
    }

    fn price_up_to_one(&self, agent: usize) -> u64 {
        let mut prices = self.prices_of(agent);
        prices.sort_unstable();
        prices.pop();
        prices.iter().sum()
    }

    fn best(&self, agent: usize) -> Vec<usize> {
        let chores = 0..self.costs.chores;
        let cost = |chore: usize| self.costs.of(agent, chore);
        let at_most = |r: usize, s: usize| cost(r) * self.price[s] <= cost(s) * self.price[r];
        let is_best = |&r: &usize| chores.clone().all(|s| at_most(r, s));
        chores.clone().filter(is_best).collect()
    }

    fn make(&mut self, handed: Move, step: Step) {
        self.owner[handed.chore] = handed.receiver;
        let round = 1 + self.groups.len();
        self.made.push(Made {
            handed,
            round,
            step,
        });
    }

    fn step_2a(&mut self) {
        let cuts = self.groups.len();
        for group in (0..cuts.saturating_sub(1)).rev() {
            loop {
                let later: BTreeSet<usize> =
                    self.groups[group + 1..].iter().flatten().copied().collect();
                let greatest = |&i: &usize| (Reverse(self.price_up_to_one(i)), i);
                let least = |&i: &usize| (self.sum(i), i);
                let giver = self.groups[group]
                    .iter()
                    .copied()
                    .min_by_key(greatest)
                    .unwrap();
                let receiver = later.iter().copied().min_by_key(least).unwrap();
                if self.price_up_to_one(giver) <= self.sum(receiver) {
                    break;
                }
                let goes = |r: &usize| self.owner[*r] == giver && !self.entitled.contains(r);
                let chore = (0..self.costs.chores).find(goes).unwrap();
                let due = Move {
                    giver,
                    receiver,
                    chore,
                };
                self.make(due, Step::TwoA);
            }
        }
    }

    fn step_2b(&mut self) -> Vec<bool> {
        let mut scratch = [0; MIN_SCRATCH];
        let mut line = Line::new(&mut scratch);
        loop {
            let best: Vec<Vec<usize>> = (0..self.costs.agents).map(|i| self.best(i)).collect();
            let held = holdings(self.costs.agents, &self.owner, &self.price);
            match search(&best, &self.owner, &held, &mut line) {
                None => return (0..self.costs.agents).map(|i| line.has(i)).collect(),
                Some(due) => self.make(due, Step::TwoB),
            }
        }
    }

    fn is_done(&self) -> bool {
        let mut pairs =
            (0..self.costs.agents).flat_map(|i| (0..self.costs.agents).map(move |j| (i, j)));
        pairs.all(|(i, j)| self.price_up_to_one(i) <= self.sum(j))
    }

    fn step_3(&mut self, reachable: &[bool]) {
        let group: BTreeSet<usize> = (0..self.costs.agents).filter(|&i| reachable[i]).collect();
        for chore in (0..self.costs.chores).filter(|&r| group.contains(&self.owner[r])) {
            self.entitled.insert(chore);
            self.price[chore] = self.price[chore] * self.costs.easy / self.costs.difficult;
        }
        self.groups.push(group);
    }

    fn run(&mut self) {
        loop {
            self.step_2a();
            let reachable = self.step_2b();
            if self.is_done() {
                return;
            }
            self.step_3(&reachable);
        }
    }
}

/// Compares one sheet; hands back the moves of step 2a.
fn compare(sheet: &[u8]) -> usize {
    let costs = Costs::as_read(&Sheet::parse(sheet).unwrap());
    let mut told = Vec::new();
    let mut scratch = [7; MIN_SCRATCH];
    let run = Run::to_the_end(&costs, &mut scratch, &mut |made| told.push(made));
    let mut slow = Slow::open(&costs);
    slow.run();
    assert_eq!(run.owner, slow.owner, "{sheet:?}");
    assert_eq!(run.price, slow.price, "{sheet:?}");
    assert_eq!(told, slow.made, "{sheet:?}");
    assert_eq!(run.moves, told.len() as u64, "{sheet:?}");
    assert_eq!(run.cuts(), slow.groups.len(), "{sheet:?}");
    // Cut groups have nobody in common.
    let members: usize = slow.groups.iter().map(BTreeSet::len).sum();
    let all: BTreeSet<&usize> = slow.groups.iter().flatten().collect();
    assert_eq!(members, all.len(), "{sheet:?}");
    let of_2a = |made: &&Made| made.step == Step::TwoA;
    told.iter().filter(of_2a).count()
}

#[test]
fn small_and_medium_sheets() {
    let mut random = Random::new(4);
    let mut moves_of_2a = 0;
    for _ in 0..8_000 {
        let (agents, chores) = (1 + random.below(8), random.below(25));
        moves_of_2a += compare(&random.sheet(agents, chores));
    }
    for _ in 0..300 {
        let (agents, chores) = (1 + random.below(32), random.below(81));
        moves_of_2a += compare(&random.sheet(agents, chores));
    }
    assert!(moves_of_2a > 300, "{moves_of_2a}");
}
