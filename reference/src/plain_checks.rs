//! The two checks again, over flat lists: fast enough to time others by. Waste
//! is decided on a sheet of any size.

use crate::checks::{accepted, ListVerdict, PriceVerdict};
use crate::limits::{MAX_AGENTS, MAX_PRICE, MAX_SLACK};
use crate::price_bytes::{self, PRICE_BYTES};
use crate::refusal;
use crate::sheet::Sheet;
use crate::sums::Sums;
use crate::waste;

/// Never undecided. Writes `dominating` only with `Wasteful`.
pub fn check_list(sheet: &[u8], owners: &[u8], slack: u8, dominating: &mut [u8]) -> ListVerdict {
    let sheet = match accepted(sheet, owners) {
        Ok(sheet) => sheet,
        Err(number) => return ListVerdict::Refused(number),
    };
    if dominating.len() < sheet.chores {
        return ListVerdict::Refused(refusal::LENT);
    }
    if slack > MAX_SLACK {
        return ListVerdict::Refused(refusal::SLACK);
    }
    let owner = counted_from_0(owners);
    if let Some((i, j)) = first_unfair_pair(&sheet, &owner, slack) {
        return ListVerdict::Unfair(i + 1, j + 1);
    }
    match waste::dominating(&sheet, &owner) {
        None => ListVerdict::Holds,
        Some(better) => {
            for (entry, agent) in dominating.iter_mut().zip(better) {
                *entry = agent + 1;
            }
            ListVerdict::Wasteful
        }
    }
}

/// Prices are bytes, four to a price, high byte first.
pub fn check_prices(sheet: &[u8], owners: &[u8], prices: &[u8]) -> PriceVerdict {
    let sheet = match accepted(sheet, owners) {
        Ok(sheet) => sheet,
        Err(number) => return PriceVerdict::Refused(number),
    };
    let price = price_bytes::read(prices);
    let priced = price.iter().all(|price| (1..=MAX_PRICE).contains(price));
    if prices.len() != PRICE_BYTES * sheet.chores || !priced {
        return PriceVerdict::Refused(refusal::PRICE);
    }
    let owner = counted_from_0(owners);
    if let Some(chore) = first_off_price(&sheet, &owner, &price) {
        return PriceVerdict::OffPrice(chore + 1);
    }
    match first_price_envy(sheet.agents, &Sums::of(&owner, &price)) {
        Some((i, j)) => PriceVerdict::PriceEnvy(i + 1, j + 1),
        None => PriceVerdict::Accepted,
    }
}

fn counted_from_0(owners: &[u8]) -> Vec<u8> {
    owners.iter().map(|number| number - 1).collect()
}

/// The first pair, by i and then by j, where j's chores would cost i less than
/// the rest of i's own.
fn first_unfair_pair(sheet: &Sheet, owner: &[u8], slack: u8) -> Option<(usize, usize)> {
    let rest = rests(sheet, owner, slack.into());
    (0..sheet.agents).find_map(|i| {
        let cost = bundle_costs(sheet, owner, i);
        let j = first_below(rest[i], &cost[..sheet.agents])?;
        Some((i, j))
    })
}

/// What each agent's chores cost it without the `slack` costliest. Fewer of them
/// taken off leave no less.
fn rests(sheet: &Sheet, owner: &[u8], slack: usize) -> [u32; MAX_AGENTS] {
    let mut rest = [0; MAX_AGENTS];
    // The costliest so far, greatest first, and 0 where there are fewer.
    let mut off = [[0; MAX_SLACK as usize]; MAX_AGENTS];
    for (chore, &agent) in owner.iter().enumerate() {
        let agent = usize::from(agent);
        let mut cost = sheet.cost(agent, chore);
        for place in &mut off[agent][..slack] {
            (*place, cost) = (cost.max(*place), cost.min(*place));
        }
        rest[agent] += cost;
    }
    rest
}

/// What each agent's chores cost `judge`.
fn bundle_costs(sheet: &Sheet, owner: &[u8], judge: usize) -> [u32; MAX_AGENTS] {
    let mut bundle = [0; MAX_AGENTS];
    for (&holder, cost) in owner.iter().zip(sheet.costs(judge)) {
        bundle[usize::from(holder)] += cost;
    }
    bundle
}

fn first_below(bound: u32, sums: &[u32]) -> Option<usize> {
    sums.iter().position(|&sum| sum < bound)
}

/// The first chore that is not a best chore of its owner.
fn first_off_price(sheet: &Sheet, owner: &[u8], price: &[u32]) -> Option<usize> {
    let mut best = [0; MAX_AGENTS];
    for (agent, best) in best[..sheet.agents].iter_mut().enumerate() {
        let chores = sheet.costs(agent).zip(price);
        let all = chores.map(|(cost, &price)| appeal(sheet, cost, price));
        *best = all.max().unwrap_or(0);
    }
    (0..sheet.chores).find(|&chore| {
        let agent = usize::from(owner[chore]);
        appeal(sheet, sheet.cost(agent, chore), price[chore]) < best[agent]
    })
}

/// Greater where cost / price is less: it is price / cost times both weights,
/// since their product divided by one of them is the other.
fn appeal(sheet: &Sheet, cost: u32, price: u32) -> u32 {
    price * (sheet.easy + sheet.difficult - cost)
}

/// The first pair where i's price up to one is above j's sum.
fn first_price_envy(agents: usize, held: &Sums) -> Option<(usize, usize)> {
    (0..agents).find_map(|i| {
        let j = first_below(held.up_to_one[i], &held.sum[..agents])?;
        Some((i, j))
    })
}
