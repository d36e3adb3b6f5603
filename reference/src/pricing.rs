//! Price sums, prices up to one chore, and best chores.

use crate::costs::Costs;

/// The prices that one agent holds.
#[derive(Debug, Clone, Copy, Default, PartialEq, Eq)]
pub struct Holding {
    pub sum: u64,
    pub dearest: u64,
}

impl Holding {
    /// The sum less the dearest; 0 where nothing is held.
    pub fn price_up_to_one(&self) -> u64 {
        self.sum - self.dearest
    }
}

/// Every agent's holding, in one pass over the chores.
pub fn holdings(agents: usize, owner: &[usize], price: &[u64]) -> Vec<Holding> {
    let mut all = vec![Holding::default(); agents];
    for (&agent, &price) in owner.iter().zip(price) {
        let holding = &mut all[agent];
        holding.sum += price;
        holding.dearest = holding.dearest.max(price);
    }
    all
}

pub fn least_sum(holdings: &[Holding]) -> u64 {
    let sums = holdings.iter().map(|holding| holding.sum);
    sums.min().expect("a sheet has an agent")
}

/// A cost divided by a price, kept as the two numbers.
#[derive(Debug, Clone, Copy)]
struct Ratio {
    cost: u64,
    price: u64,
}

impl Ratio {
    fn below(self, other: Ratio) -> bool {
        self.cost * other.price < other.cost * self.price
    }
}

/// An agent's chores of least ratio over the whole sheet, lowest number first.
pub fn best_chores(costs: &Costs, price: &[u64], agent: usize) -> Vec<usize> {
    let ratio = |chore: usize| Ratio {
        cost: costs.of(agent, chore),
        price: price[chore],
    };
    let chores = 0..costs.chores;
    let lesser = |one: Ratio, other: Ratio| if other.below(one) { other } else { one };
    match chores.clone().map(ratio).reduce(lesser) {
        Some(least) => chores.filter(|&r| !least.below(ratio(r))).collect(),
        None => Vec::new(),
    }
}
