//! The list check and the price check, on bytes as handed in.

use crate::costs::Costs;
use crate::fairness;
use crate::limits::{MAX_PRICE, MAX_SLACK};
use crate::pricing::{best_chores, holdings};
use crate::refusal;
use crate::share_out::owner_byte;
use crate::sheet::Sheet;

/// Agents are named by their number, counted from 1.
#[derive(Debug, Clone, Copy, PartialEq, Eq)]
pub enum ListVerdict {
    Refused(u8),
    Holds,
    Unfair(usize, usize),
    /// A dominating allocation stands in the first m lent entries.
    Wasteful,
    /// Not unfair, but there are too many allocations to try them all for waste.
    Undecided,
}

/// Agents and chores are named by their number, counted from 1.
#[derive(Debug, Clone, Copy, PartialEq, Eq)]
pub enum PriceVerdict {
    Refused(u8),
    OffPrice(usize),
    PriceEnvy(usize, usize),
    Accepted,
}

/// Up to `slack` chores of whoever envies may be taken off. Writes `dominating`
/// only with `Wasteful`.
pub fn check_list(sheet: &[u8], owners: &[u8], slack: u8, dominating: &mut [u8]) -> ListVerdict {
    let (costs, owner) = match judged(sheet, owners) {
        Ok(judged) => judged,
        Err(number) => return ListVerdict::Refused(number),
    };
    if dominating.len() < costs.chores {
        return ListVerdict::Refused(refusal::LENT);
    }
    if slack > MAX_SLACK {
        return ListVerdict::Refused(refusal::SLACK);
    }
    if let Some((i, j)) = fairness::first_unfair_pair(&costs, &owner, slack) {
        return ListVerdict::Unfair(i + 1, j + 1);
    }
    if !fairness::can_try_all(&costs) {
        return ListVerdict::Undecided;
    }
    match fairness::first_dominating(&costs, &owner) {
        None => ListVerdict::Holds,
        Some(better) => {
            for (entry, agent) in dominating.iter_mut().zip(better) {
                *entry = owner_byte(agent);
            }
            ListVerdict::Wasteful
        }
    }
}

pub fn check_prices(sheet: &[u8], owners: &[u8], prices: &[u32]) -> PriceVerdict {
    let (costs, owner) = match judged(sheet, owners) {
        Ok(judged) => judged,
        Err(number) => return PriceVerdict::Refused(number),
    };
    let priced = prices.iter().all(|price| (1..=MAX_PRICE).contains(price));
    if prices.len() != costs.chores || !priced {
        return PriceVerdict::Refused(refusal::PRICE);
    }
    let price: Vec<u64> = prices.iter().map(|&price| u64::from(price)).collect();
    if let Some(chore) = first_off_price(&costs, &owner, &price) {
        return PriceVerdict::OffPrice(chore + 1);
    }
    match first_price_envy(costs.agents, &owner, &price) {
        Some((i, j)) => PriceVerdict::PriceEnvy(i + 1, j + 1),
        None => PriceVerdict::Accepted,
    }
}

/// Whether `other` dominates `owners`, on a sheet of any size. A refused
/// sheet, or a list that is not m owners of it, has no such answer but false.
pub fn dominates(sheet: &[u8], other: &[u8], owners: &[u8]) -> bool {
    match (judged(sheet, other), judged(sheet, owners)) {
        (Ok((costs, other)), Ok((_, owner))) => fairness::dominates(&costs, &other, &owner),
        _ => false,
    }
}

/// Whether `check_list` can look for waste on this sheet.
pub fn is_small_enough(sheet: &[u8]) -> bool {
    Sheet::parse(sheet).is_ok_and(|sheet| fairness::can_try_all(&Costs::as_marked(&sheet)))
}

/// The costs as marked, and the owners counted from 0.
fn judged(sheet: &[u8], owners: &[u8]) -> Result<(Costs, Vec<usize>), u8> {
    let sheet = accepted(sheet, owners)?;
    let owner = owners.iter().map(|&number| usize::from(number) - 1);
    Ok((Costs::as_marked(&sheet), owner.collect()))
}

/// The sheet, if neither it nor the list of its owners breaks a rule.
pub fn accepted<'a>(sheet: &'a [u8], owners: &[u8]) -> Result<Sheet<'a>, u8> {
    let sheet = Sheet::parse(sheet)?;
    if owners.len() != sheet.chores {
        return Err(refusal::OWNER_COUNT);
    }
    let known = |&number: &u8| (1..=sheet.agents).contains(&usize::from(number));
    if !owners.iter().all(known) {
        return Err(refusal::OWNER);
    }
    Ok(sheet)
}

/// The first chore that is not a best chore of its owner.
fn first_off_price(costs: &Costs, owner: &[usize], price: &[u64]) -> Option<usize> {
    let best: Vec<Vec<usize>> = (0..costs.agents)
        .map(|agent| best_chores(costs, price, agent))
        .collect();
    (0..costs.chores).find(|chore| !best[owner[*chore]].contains(chore))
}

/// The first pair, i holding a chore, where i's price up to one is above j's sum.
fn first_price_envy(agents: usize, owner: &[usize], price: &[u64]) -> Option<(usize, usize)> {
    let held = holdings(agents, owner, price);
    for i in (0..agents).filter(|i| owner.contains(i)) {
        for j in 0..agents {
            if held[i].price_up_to_one() > held[j].sum {
                return Some((i, j));
            }
        }
    }
    None
}
