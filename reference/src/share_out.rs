//! The share-out of one sheet into lent lists.

use crate::algorithm::{self, Made, Run};
use crate::costs::Costs;
use crate::limits::MIN_SCRATCH;
use crate::refusal;
use crate::sheet::Sheet;

#[derive(Debug, Clone, Copy, PartialEq, Eq)]
pub enum ShareOut {
    Refused(u8),
    Shared { moves: u64, cuts: u8 },
}

/// The result for an accepted sheet, owners counted from 1.
#[derive(Debug, Clone, PartialEq, Eq)]
pub struct Worked {
    pub owners: Vec<u8>,
    pub prices: Vec<u32>,
    pub moves: u64,
    pub cuts: u8,
}

/// A way to work an accepted sheet. It may leave anything in the scratch.
pub type Way = fn(&Sheet, &mut [u8]) -> Worked;

/// Works an accepted sheet, near the text of the scope document.
pub fn work(sheet: &Sheet, scratch: &mut [u8]) -> Worked {
    work_telling(sheet, scratch, &mut |_| ())
}

/// The same, with every move told as it is made.
pub fn work_telling(sheet: &Sheet, scratch: &mut [u8], tell: &mut impl FnMut(Made)) -> Worked {
    let costs = Costs::as_read(sheet);
    let run = Run::to_the_end(&costs, scratch, tell);
    let price = |&price: &u64| u32::try_from(price).expect("a price has 32 bits");
    Worked {
        owners: owner_bytes(&run.owner),
        prices: run.price.iter().map(price).collect(),
        moves: run.moves,
        cuts: u8::try_from(run.cuts()).expect("fewer cuts than agents"),
    }
}

/// Refused: nothing lent changes. Shared: the first m owners and prices are
/// written, the rest are kept, and the whole scratch is zeros.
pub fn allocate(
    sheet: &[u8],
    owners: &mut [u8],
    prices: &mut [u32],
    scratch: &mut [u8],
) -> ShareOut {
    allocate_by(work, sheet, owners, prices, scratch)
}

/// The share-out with either way to work a sheet.
pub fn allocate_by(
    work: Way,
    sheet: &[u8],
    owners: &mut [u8],
    prices: &mut [u32],
    scratch: &mut [u8],
) -> ShareOut {
    match accepted(sheet, owners, prices, scratch) {
        Ok(sheet) => hand_over(&work(&sheet, scratch), owners, prices, scratch),
        Err(number) => ShareOut::Refused(number),
    }
}

/// The sheet, if it breaks no rule and enough is lent for it.
pub fn accepted<'a>(
    sheet: &'a [u8],
    owners: &[u8],
    prices: &[u32],
    scratch: &[u8],
) -> Result<Sheet<'a>, u8> {
    let sheet = Sheet::parse(sheet)?;
    let shortest = owners.len().min(prices.len());
    if shortest < sheet.chores || scratch.len() < MIN_SCRATCH {
        return Err(refusal::LENT);
    }
    Ok(sheet)
}

/// Writes the result to the start of the lent lists, and clears the scratch.
pub fn hand_over(
    worked: &Worked,
    owners: &mut [u8],
    prices: &mut [u32],
    scratch: &mut [u8],
) -> ShareOut {
    let chores = worked.owners.len();
    owners[..chores].copy_from_slice(&worked.owners);
    prices[..chores].copy_from_slice(&worked.prices);
    scratch.fill(0);
    ShareOut::Shared {
        moves: worked.moves,
        cuts: worked.cuts,
    }
}

/// The owners before round 1, counted from 1.
pub fn opening(sheet: &Sheet) -> Vec<u8> {
    let (owner, _) = algorithm::opening(&Costs::as_read(sheet));
    owner_bytes(&owner)
}

fn owner_bytes(owner: &[usize]) -> Vec<u8> {
    owner.iter().map(|&agent| owner_byte(agent)).collect()
}

/// The byte for an agent counted from 0.
pub fn owner_byte(agent: usize) -> u8 {
    u8::try_from(agent + 1).expect("an agent's number is a byte")
}
