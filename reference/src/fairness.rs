//! Envy up to a slack and Pareto domination, by their definitions.

use crate::costs::Costs;
use crate::limits::MAX_ALLOCATIONS_TRIED;

/// The first pair, by i and then by j, where i envies j by more than the slack.
pub fn first_unfair_pair(costs: &Costs, owner: &[usize], slack: u8) -> Option<(usize, usize)> {
    for i in 0..costs.agents {
        for j in 0..costs.agents {
            if envies(costs, owner, slack, i, j) {
                return Some((i, j));
            }
        }
    }
    None
}

/// i's chores cost i more than j's would, and still do after each of up to
/// `slack` chores that are taken off one by one. With none left i envies nobody.
fn envies(costs: &Costs, owner: &[usize], slack: u8, i: usize, j: usize) -> bool {
    let other = bundle_cost(costs, owner, i, j);
    let held = (0..costs.chores).filter(|&chore| owner[chore] == i);
    let mut left: Vec<u64> = held.map(|chore| costs.of(i, chore)).collect();
    for _ in 0..slack {
        if left.iter().sum::<u64>() <= other {
            return false;
        }
        take_costliest_off(&mut left);
    }
    left.iter().sum::<u64>() > other
}

fn take_costliest_off(left: &mut Vec<u64>) {
    let costliest = (0..left.len()).max_by_key(|&place| left[place]);
    if let Some(place) = costliest {
        left.remove(place);
    }
}

/// What the chores of `holder` cost `judge`.
fn bundle_cost(costs: &Costs, owner: &[usize], judge: usize, holder: usize) -> u64 {
    let held = (0..costs.chores).filter(|&chore| owner[chore] == holder);
    held.map(|chore| costs.of(judge, chore)).sum()
}

/// What each agent's own chores cost that agent.
pub fn own_costs(costs: &Costs, owner: &[usize]) -> Vec<u64> {
    let mut own = vec![0; costs.agents];
    for (chore, &agent) in owner.iter().enumerate() {
        own[agent] += costs.of(agent, chore);
    }
    own
}

/// `other` costs nobody more than `owner` does, and somebody less.
pub fn dominates(costs: &Costs, other: &[usize], owner: &[usize]) -> bool {
    is_better(&own_costs(costs, other), &own_costs(costs, owner))
}

fn is_better(new: &[u64], old: &[u64]) -> bool {
    let mut pairs = new.iter().zip(old);
    pairs.clone().all(|(new, old)| new <= old) && pairs.any(|(new, old)| new < old)
}

/// Whether there are few enough allocations to try them all.
pub fn can_try_all(costs: &Costs) -> bool {
    let mut count: usize = 1;
    for _ in 0..costs.chores {
        count = count.saturating_mul(costs.agents);
    }
    count <= MAX_ALLOCATIONS_TRIED
}

/// The first allocation of all that dominates `owner`.
pub fn first_dominating(costs: &Costs, owner: &[usize]) -> Option<Vec<usize>> {
    let old = own_costs(costs, owner);
    let mut tried = vec![0; costs.chores];
    loop {
        if is_better(&own_costs(costs, &tried), &old) {
            return Some(tried);
        }
        if !advance(&mut tried, costs.agents) {
            return None;
        }
    }
}

/// Counts on by one in base `agents`; false after the last allocation.
pub fn advance(owner: &mut [usize], agents: usize) -> bool {
    for digit in owner.iter_mut().rev() {
        *digit += 1;
        if *digit < agents {
            return true;
        }
        *digit = 0;
    }
    false
}
