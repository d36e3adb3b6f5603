//! Price sums by owner over flat lists, in one pass.

use crate::limits::MAX_AGENTS;

/// For each agent, the sum of its chores' prices, and that sum less the greatest
/// of them; 0 where nothing is held.
#[derive(Debug, Clone, Copy, Default)]
pub struct Sums {
    pub sum: [u32; MAX_AGENTS],
    pub up_to_one: [u32; MAX_AGENTS],
}

impl Sums {
    /// `price` has one entry by chore.
    pub fn of(owner: &[u8], price: &[u32]) -> Self {
        let mut sums = Sums::default();
        sums.add_up(owner, price);
        sums
    }

    /// The same in place of the sums so far.
    pub fn add_up(&mut self, owner: &[u8], price: &[u32]) {
        let mut greatest = [0; MAX_AGENTS];
        self.sum = [0; MAX_AGENTS];
        for (&agent, &price) in owner.iter().zip(price) {
            let agent = usize::from(agent);
            self.sum[agent] += price;
            greatest[agent] = price.max(greatest[agent]);
        }
        for (agent, greatest) in greatest.iter().enumerate() {
            self.up_to_one[agent] = self.sum[agent] - greatest;
        }
    }
}
