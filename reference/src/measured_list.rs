//! Lists that respect the measure: nobody's chores cost it more than its own
//! measure, and the list is not wasteful, both as marked. Several lists can
//! qualify, and which of them is found is left free.

use crate::checks::accepted;
use crate::costs::Costs;
use crate::fairness::{advance, first_dominating, own_costs};
use crate::measures::{can_try_all, measures};
use crate::refusal;
use crate::sheet::Sheet;
use crate::waste;
use std::cmp::Reverse;

/// A list that qualifies, owners counted from 1, or the refusal number. So many
/// entries are lent for it.
pub fn measured_list(sheet: &[u8], lent: usize) -> Result<Vec<u8>, u8> {
    let measures = measures(sheet)?;
    let sheet = Sheet::parse(sheet)?;
    if lent < sheet.chores {
        return Err(refusal::LENT);
    }
    let owner = if can_try_all(&sheet) {
        by_trying(&sheet, &measures)
    } else {
        by_improving(&sheet, &measures).owner
    };
    Ok(owner.into_iter().map(|agent| agent + 1).collect())
}

/// Whether nobody's chores cost it more than its own measure. A refused sheet, or a
/// list that is not m owners of it, has no such answer but false.
pub fn within_measures(sheet: &[u8], owners: &[u8]) -> bool {
    match (measures(sheet), judged(sheet, owners)) {
        (Ok(measures), Ok((sheet, owner))) => {
            is_within(&Costs::as_marked(&sheet), &measures, &owner)
        }
        _ => false,
    }
}

/// Whether some list dominates: by trying every list where there are few, by a path
/// otherwise. Of a refused sheet or list it is false, too.
pub fn is_wasteful(sheet: &[u8], owners: &[u8]) -> bool {
    let Ok((sheet, owner)) = judged(sheet, owners) else {
        return false;
    };
    if can_try_all(&sheet) {
        return first_dominating(&Costs::as_marked(&sheet), &owner).is_some();
    }
    waste::dominating(&sheet, &bytes(&owner)).is_some()
}

/// Whether the list has both properties.
pub fn qualifies(sheet: &[u8], owners: &[u8]) -> bool {
    within_measures(sheet, owners) && !is_wasteful(sheet, owners)
}

/// The sheet, and the owners counted from 0.
fn judged<'a>(sheet: &'a [u8], owners: &[u8]) -> Result<(Sheet<'a>, Vec<usize>), u8> {
    let sheet = accepted(sheet, owners)?;
    let owner = owners.iter().map(|&number| usize::from(number) - 1);
    Ok((sheet, owner.collect()))
}

fn is_within(costs: &Costs, measures: &[u32], owner: &[usize]) -> bool {
    let own = own_costs(costs, owner);
    let mut pairs = own.iter().zip(measures);
    pairs.all(|(&cost, &measure)| cost <= u64::from(measure))
}

fn bytes(owner: &[usize]) -> Vec<u8> {
    owner.iter().map(|&agent| agent as u8).collect()
}

/// The definition: the first list of all that qualifies. Owners count from 0, here
/// and below.
pub fn by_trying(sheet: &Sheet, measures: &[u32]) -> Vec<u8> {
    let costs = Costs::as_marked(sheet);
    let qualifies = |owner: &[usize]| {
        is_within(&costs, measures, owner) && first_dominating(&costs, owner).is_none()
    };
    let mut tried = vec![0; sheet.chores];
    while !qualifies(&tried) {
        assert!(advance(&mut tried, sheet.agents), "some list qualifies");
    }
    bytes(&tried)
}

/// A list and how many others led to it, each of which it dominates.
#[derive(Debug)]
pub struct Improved {
    pub owner: Vec<u8>,
    pub improvements: usize,
}

/// The same on a sheet of any size: a list by quotas, within the measures, and in
/// its place one that dominates it, as long as there is one. None costs anybody more
/// than the one before.
pub fn by_improving(sheet: &Sheet, measures: &[u32]) -> Improved {
    let opened = Quotas::of(sheet, measures).opened(sheet);
    let mut owner = opened.expect("every chore has a place");
    let mut improvements = 0;
    while let Some(better) = waste::dominating(sheet, &owner) {
        owner = better;
        improvements += 1;
    }
    Improved {
        owner,
        improvements,
    }
}

/// What each agent may take. Some of its measure is kept for places, each of which
/// is for any chore; the rest is for chores that it finds easy.
#[derive(Debug, Clone)]
pub struct Quotas {
    /// Easy chores that cost as much as a difficult one.
    pub times: usize,
    /// Easy chores that cost as much as each agent's measure.
    pub measure: Vec<usize>,
    /// The agents in the order in which they are served: those with the most
    /// difficult marks first, the lowest number of several.
    pub order: Vec<usize>,
    /// All places: as many as there are difficult marks by agent, rounded down.
    pub places: usize,
    /// The most places that each agent may have: as many as its measure allows.
    pub most_places: Vec<usize>,
}

impl Quotas {
    /// On a sheet whose difficult weight is a multiple of the easy one.
    pub fn of(sheet: &Sheet, measures: &[u32]) -> Self {
        let times = (sheet.difficult / sheet.easy) as usize;
        let measure: Vec<usize> = measures
            .iter()
            .map(|measure| (measure / sheet.easy) as usize)
            .collect();
        let mut order: Vec<usize> = (0..sheet.agents).collect();
        order.sort_by_key(|&agent| Reverse(sheet.difficult_marks(agent)));
        let difficult: usize = order
            .iter()
            .map(|&agent| sheet.difficult_marks(agent))
            .sum();
        let most_places = measure.iter().map(|measure| measure / times).collect();
        Quotas {
            times,
            measure,
            order,
            places: difficult / sheet.agents,
            most_places,
        }
    }

    /// The list before any improvement. One by one the agents get their places and
    /// take what they find easy; then what is left goes where there are places. None
    /// if there are too few of them, as other quotas may have.
    pub fn opened(&self, sheet: &Sheet) -> Option<Vec<u8>> {
        let mut owner: Vec<Option<u8>> = vec![None; sheet.chores];
        let mut places = vec![0; sheet.agents];
        let mut left = self.places;
        for &agent in &self.order {
            places[agent] = self.most_places[agent].min(left);
            left -= places[agent];
            let rest = self.measure[agent] - self.times * places[agent];
            let free = owner.iter_mut().zip(sheet.marks(agent));
            let easy = free.filter(|(owner, difficult)| owner.is_none() && !difficult);
            for (owner, _) in easy.take(rest) {
                *owner = Some(agent as u8);
            }
        }
        let placed = owner.into_iter().enumerate().map(|(chore, taken)| {
            taken.or_else(|| {
                let agent = placed_with(sheet, &places, chore)?;
                places[agent] -= 1;
                Some(agent as u8)
            })
        });
        placed.collect()
    }
}

/// Of the agents that have a place one who finds the chore easy, if there is one; the
/// lowest number of several.
fn placed_with(sheet: &Sheet, places: &[usize], chore: usize) -> Option<usize> {
    let with_place = (0..sheet.agents).filter(|&agent| places[agent] > 0);
    with_place.min_by_key(|&agent| (sheet.is_difficult(agent, chore), agent))
}
