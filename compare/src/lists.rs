//! Random lists and prices for the two checks.

use crate::comparisons::list_checks::judged;
use crate::damage::damaged;
use crate::random::{self, Random};
use crate::{header, shapes, Checks};
use reference::limits::MAX_SLACK;
use reference::sheet::Sheet;
use reference::{plain, ListVerdict, PriceVerdict};

/// The share-out's list and prices, by the second program.
pub fn shared_out(sheet: &[u8]) -> (Vec<u8>, Vec<u32>) {
    let sheet = Sheet::parse(sheet).expect("the sheet keeps the rules");
    let worked = plain::work(&sheet, &mut []);
    (worked.owners, worked.prices)
}

/// A list from the share-out, with some owners changed: often even, often not wasteful.
pub fn near_fair(sheet: &[u8], random: &mut Random) -> Vec<u8> {
    let (agents, chores) = (header::agents(sheet), header::chores(sheet));
    let (mut owners, _) = shared_out(sheet);
    for _ in 0..random.below(4) {
        if chores > 0 {
            let (c, d) = (random.below(chores), random.below(chores));
            if random.chance(50) {
                owners.swap(c, d);
            } else {
                owners[c] = 1 + random.below(agents) as u8;
            }
        }
    }
    owners
}

/// A list to check at this slack: often unfair at it, often not.
pub fn near_slack(sheet: &[u8], slack: u8, random: &mut Random) -> Vec<u8> {
    match random.below(8) {
        0 => random::dealt(random, header::agents(sheet), header::chores(sheet)),
        1 | 2 => near_fair(sheet, random),
        _ => piled(sheet, slack, random),
    }
}

/// A list near the share-out's, with some chores handed to one agent: about as
/// many as make it unfair at this slack.
fn piled(sheet: &[u8], slack: u8, random: &mut Random) -> Vec<u8> {
    let mut owners = near_fair(sheet, random);
    let sheet = Sheet::parse(sheet).expect("the sheet keeps the rules");
    let agent = random.below(sheet.agents);
    // What is easy for its owners makes no waste, mostly.
    let easy_only = random.chance(50);
    let mut takes: Vec<usize> = (0..sheet.chores)
        .filter(|&chore| !easy_only || !sheet.is_difficult(agent, chore))
        .collect();
    for _ in 0..random.below(2 * usize::from(slack) + 4) {
        if !takes.is_empty() {
            let chore = takes.swap_remove(random.below(takes.len()));
            owners[chore] = 1 + agent as u8;
        }
    }
    owners
}

/// From 0 to one more than there may be.
pub fn slack(random: &mut Random) -> u8 {
    random.below(usize::from(MAX_SLACK) + 2) as u8
}

/// The same mostly, or any byte.
fn any_slack(random: &mut Random) -> u8 {
    match random.below(8) {
        0 => random.byte(),
        1 => [MAX_SLACK + 1, 64, 128, u8::MAX][random.below(4)],
        _ => slack(random),
    }
}

/// The share-out's list and prices, with an owner or a price changed: often accepted.
pub fn near_accepted(sheet: &[u8], random: &mut Random) -> (Vec<u8>, Vec<u8>) {
    let (agents, chores) = (header::agents(sheet), header::chores(sheet));
    let (mut owners, mut prices) = shared_out(sheet);
    if chores > 0 && random.chance(60) {
        owners[random.below(chores)] = 1 + random.below(agents) as u8;
    }
    if chores > 0 && random.chance(40) {
        prices[random.below(chores)] = 1 + random.below(1_000_000) as u32;
    }
    (owners, bytes(prices))
}

pub fn bytes(prices: Vec<u32>) -> Vec<u8> {
    prices.into_iter().flat_map(u32::to_be_bytes).collect()
}

/// What the checks are given.
#[derive(Debug)]
pub struct Given {
    pub sheet: Vec<u8>,
    pub owners: Vec<u8>,
    pub slack: u8,
    pub prices: Vec<u8>,
    /// Entries that the list check is lent.
    pub lent: usize,
}

impl Given {
    /// A program's list check, with what it may write looked at.
    pub fn judged(&self, program: &dyn Checks, random: &mut Random) -> ListVerdict {
        judged(program, self, random)
    }

    pub fn check_prices(&self, program: &dyn Checks) -> PriceVerdict {
        program.check_prices(&self.sheet, &self.owners, &self.prices)
    }
}

/// Faults in the sheet, the list, the slack, the prices or what is lent; now and
/// then none.
pub fn damaged_given(random: &mut Random) -> Given {
    let mut sheet = shapes::tiny_sheet(random);
    let (agents, chores) = (header::agents(&sheet), header::chores(&sheet));
    let mut owners = random::owners(random, agents, chores);
    if random.chance(60) {
        sheet = damaged(random, sheet);
    }
    if random.chance(60) {
        owners = damaged_list(owners, random);
    }
    Given {
        sheet,
        owners,
        slack: any_slack(random),
        lent: random.below(chores + 3),
        prices: any_prices(random, chores),
    }
}

/// Any bytes in place of some of the first ones, and sometimes another length.
fn damaged_list(mut bytes: Vec<u8>, random: &mut Random) -> Vec<u8> {
    for _ in 0..1 + random.below(3) {
        if !bytes.is_empty() && random.chance(70) {
            let at = random.below(bytes.len().min(10));
            bytes[at] = random.byte();
        } else if random.chance(50) {
            bytes.pop();
        } else {
            bytes.push(random.byte());
        }
    }
    bytes
}

/// Of m entries mostly; now and then with bytes that make no entry.
fn any_prices(random: &mut Random, chores: usize) -> Vec<u8> {
    let entries = chores + [0, 0, 0, 1, 2][random.below(5)];
    let mut prices = bytes((0..entries).map(|_| price(random)).collect());
    if random.chance(20) {
        prices.truncate(prices.len().saturating_sub(random.below(6)));
    }
    prices
}

/// In range mostly, at the limits now and then.
fn price(random: &mut Random) -> u32 {
    match random.below(12) {
        0 => 0,
        1 => 1_000_001,
        2 => 1_000_000,
        3 => u32::MAX,
        _ => 1 + random.below(9) as u32,
    }
}
