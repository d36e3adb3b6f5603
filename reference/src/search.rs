//! Step 2b's search by distance from the agents of least price sum.

use crate::line::Line;
use crate::pricing::{least_sum, Holding};
use std::ops::Range;

/// One chore on its way from giver to receiver.
#[derive(Debug, Clone, Copy, PartialEq, Eq)]
pub struct Move {
    pub giver: usize,
    pub receiver: usize,
    pub chore: usize,
}

/// The move that step 2b makes next, if a giver is reachable. Whoever was
/// reached is in line then: without a move, everybody who is reachable.
///
/// `best` has each agent's best chores, lowest number first.
pub fn search(
    best: &[Vec<usize>],
    owner: &[usize],
    holdings: &[Holding],
    line: &mut Line,
) -> Option<Move> {
    let least = least_sum(holdings);
    let gives = |&agent: &usize| holdings[agent].price_up_to_one() > least;
    let mut ring = first_ring(holdings, least, line);
    let mut distance = 0;
    while !ring.is_empty() {
        ring = next_ring(best, owner, ring, distance, line);
        distance += 1;
        if let Some(giver) = line.ring(distance).find(gives) {
            return Some(move_to(line.ring(distance - 1), giver, best, owner));
        }
    }
    None
}

/// Only the agents of least sum are in line. Hands back their places.
fn first_ring(holdings: &[Holding], least: u64, line: &mut Line) -> Range<usize> {
    line.clear();
    for agent in (0..holdings.len()).filter(|&agent| holdings[agent].sum == least) {
        line.join(agent, 0);
    }
    0..line.length()
}

/// Those one further than the agents at these places join the line behind them.
/// Hands back their places.
fn next_ring(
    best: &[Vec<usize>],
    owner: &[usize],
    ring: Range<usize>,
    distance: usize,
    line: &mut Line,
) -> Range<usize> {
    let end = ring.end;
    for place in ring {
        let receiver = line.agent_at(place);
        for &chore in &best[receiver] {
            line.join(owner[chore], distance + 1);
        }
    }
    end..line.length()
}

/// From the giver to the first of a ring for whom it holds a best chore.
fn move_to(
    mut ring: impl Iterator<Item = usize>,
    giver: usize,
    best: &[Vec<usize>],
    owner: &[usize],
) -> Move {
    let to = |receiver: usize| {
        let mut chores = best[receiver].iter().copied();
        let chore = chores.find(|&chore| owner[chore] == giver)?;
        Some(Move {
            giver,
            receiver,
            chore,
        })
    };
    ring.find_map(to)
        .expect("step 2b lacks its chore: none of the giver's is a best one of the ring before")
}
