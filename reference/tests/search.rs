//! The search of step 2b against its definition, on random states.

mod common;

use common::Random;
use reference::limits::{MAX_AGENTS, MIN_SCRATCH};
use reference::line::Line;
use reference::pricing::{holdings, Holding};
use reference::search::{search, Move};

struct State {
    best: Vec<Vec<usize>>,
    owner: Vec<usize>,
    held: Vec<Holding>,
}

impl State {
    fn random(random: &mut Random) -> Self {
        let (agents, chores) = match random.below(20) {
            0 => (1 + random.below(MAX_AGENTS), random.below(100)),
            _ => (1 + random.below(7), random.below(12)),
        };
        let owner: Vec<usize> = (0..chores).map(|_| random.below(agents)).collect();
        let price: Vec<u64> = (0..chores).map(|_| 1 + random.below(4) as u64).collect();
        let sparse = 2 + random.below(6);
        let best = (0..agents)
            .map(|_| (0..chores).filter(|_| random.below(sparse) == 0).collect())
            .collect();
        let held = holdings(agents, &owner, &price);
        State { best, owner, held }
    }

    fn agents(&self) -> std::ops::Range<usize> {
        0..self.held.len()
    }

    fn least(&self) -> u64 {
        self.held.iter().map(|held| held.sum).min().unwrap()
    }

    /// The lowest best chore of `receiver` that `giver` holds.
    fn chore(&self, giver: usize, receiver: usize) -> Option<usize> {
        let held = |chore: &&usize| self.owner[**chore] == giver;
        self.best[receiver].iter().filter(held).min().copied()
    }

    /// Distances out of the definition, ring by ring.
    fn distances(&self) -> Vec<Option<usize>> {
        let at_least = |i: usize| (self.held[i].sum == self.least()).then_some(0);
        let mut distance: Vec<Option<usize>> = self.agents().map(at_least).collect();
        for t in self.agents() {
            let near = |j: usize| distance[j] == Some(t);
            let is_next = |i: usize| {
                distance[i].is_none()
                    && self.agents().any(|j| near(j) && self.chore(i, j).is_some())
            };
            let next: Vec<usize> = self.agents().filter(|&i| is_next(i)).collect();
            for i in next {
                distance[i] = Some(t + 1);
            }
        }
        distance
    }

    fn expected(&self, distance: &[Option<usize>]) -> Option<Move> {
        let gives =
            |i: &usize| distance[*i].is_some() && self.held[*i].price_up_to_one() > self.least();
        let giver = self
            .agents()
            .filter(gives)
            .min_by_key(|&i| (distance[i], i))?;
        let ring_before = |j: &usize| distance[*j].map(|t| t + 1) == distance[giver];
        let takes = |j: &usize| ring_before(j) && self.chore(giver, *j).is_some();
        let receiver = self.agents().find(takes).unwrap();
        let chore = self.chore(giver, receiver).unwrap();
        Some(Move {
            giver,
            receiver,
            chore,
        })
    }
}

/// The first half of the scratch has the distances up to the giver's, or all of
/// them, and the second half begins with those agents, nearer ones first.
fn assert_in_line(scratch: &[u8], distance: &[Option<usize>], up_to: Option<usize>) {
    let seen = |t: &usize| up_to.is_none_or(|most| *t <= most);
    let distance: Vec<Option<usize>> = distance.iter().map(|t| t.filter(seen)).collect();
    let (distances, line) = scratch.split_at(MAX_AGENTS);
    let mut expected: Vec<usize> = distance.iter().map(|t| t.map_or(0, |t| t + 1)).collect();
    expected.resize(MAX_AGENTS, 0);
    assert_eq!(numbers(distances), expected);
    let reached: Vec<usize> = (0..distance.len())
        .filter(|&i| distance[i].is_some())
        .collect();
    let mut line = numbers(&line[..reached.len()]);
    assert!(line.is_sorted_by_key(|&i| distance[i]), "{line:?}");
    line.sort_unstable();
    assert_eq!(line, reached);
}

fn numbers(bytes: &[u8]) -> Vec<usize> {
    bytes.iter().copied().map(usize::from).collect()
}

#[test]
fn agrees_with_the_definition() {
    let mut random = Random::new(3);
    let mut moves = 0;
    let mut far = 0;
    for _ in 0..50_000 {
        let state = State::random(&mut random);
        let distance = state.distances();
        let mut scratch = [0; MIN_SCRATCH].map(|_: u8| random.below(256) as u8);
        let mut line = Line::new(&mut scratch);
        let found = search(&state.best, &state.owner, &state.held, &mut line);
        assert_eq!(found, state.expected(&distance));
        let up_to = found.and_then(|step| distance[step.giver]);
        assert_in_line(&scratch, &distance, up_to);
        moves += usize::from(found.is_some());
        far += usize::from(up_to > Some(1));
    }
    assert!(moves > 5_000 && moves < 45_000 && far > 500);
}
