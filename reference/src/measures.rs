//! Everyone's own measure: of all partitions of the chores into as many bundles
//! as there are agents, the least that the costliest bundle costs an agent, as
//! marked. With the sign turned it is the agent's maximin share.

use crate::fairness::advance;
use crate::limits::{MAX_AGENTS, MAX_PARTITIONS_TRIED};
use crate::refusal;
use crate::sheet::Sheet;
use std::cmp::Reverse;

/// The measures in order of agent, or the refusal number.
pub fn measures(sheet: &[u8]) -> Result<Vec<u32>, u8> {
    let sheet = Sheet::parse(sheet)?;
    if !sheet.difficult.is_multiple_of(sheet.easy) {
        return Err(refusal::MULTIPLE);
    }
    let measure = if can_try_all(&sheet) {
        by_trying
    } else {
        by_dealing
    };
    let of_agent = |agent| measure(&sheet.costs(agent).collect::<Vec<u32>>(), sheet.agents);
    Ok((0..sheet.agents).map(of_agent).collect())
}

/// Whether there are few enough partitions to try them all.
pub fn can_try_all(sheet: &Sheet) -> bool {
    sheet.agents.saturating_pow(sheet.chores as u32) <= MAX_PARTITIONS_TRIED
}

/// The definition.
pub fn by_trying(costs: &[u32], bundles: usize) -> u32 {
    let mut tried = vec![0; costs.len()];
    let mut least = costliest(costs, &tried);
    while advance(&mut tried, bundles) {
        least = least.min(costliest(costs, &tried));
    }
    least
}

/// The same where one weight is a multiple of the other, by the report's Lemma 4.5.
pub fn by_dealing(costs: &[u32], bundles: usize) -> u32 {
    costliest(costs, &dealt(costs, bundles))
}

/// The report's Algorithm 2: costly chores go first, each to the bundle that
/// costs least so far. Hands back the bundle of each chore.
pub fn dealt(costs: &[u32], bundles: usize) -> Vec<usize> {
    let mut order: Vec<usize> = (0..costs.len()).collect();
    order.sort_by_key(|&chore| Reverse(costs[chore]));
    let mut so_far = vec![0; bundles];
    let mut bundle_of = vec![0; costs.len()];
    for chore in order {
        // The bundle's number settles ties.
        let least = (0..bundles).min_by_key(|&bundle| (so_far[bundle], bundle));
        let least = least.expect("a sheet has an agent");
        so_far[least] += costs[chore];
        bundle_of[chore] = least;
    }
    bundle_of
}

fn costliest(costs: &[u32], bundle_of: &[usize]) -> u32 {
    let sums = bundle_costs(costs, bundle_of);
    sums.into_iter().max().unwrap_or(0)
}

/// What each bundle of a partition costs; 0 for those that it does not have.
pub fn bundle_costs(costs: &[u32], bundle_of: &[usize]) -> [u32; MAX_AGENTS] {
    let mut sums = [0; MAX_AGENTS];
    for (cost, &bundle) in costs.iter().zip(bundle_of) {
        sums[bundle] += cost;
    }
    sums
}
