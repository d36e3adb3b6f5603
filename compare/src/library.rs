//! The calls that the proved library and the plain C program both have, and the
//! two checks that the second program has as well.

use crate::c;
use crate::strands::Pair;
use reference::limits::MAX_AGENTS;
use reference::{plain_checks, ListVerdict, PriceVerdict};

/// The two checks of any program. Prices are bytes, four to a price.
pub trait Checks {
    fn check_list(
        &self,
        sheet: &[u8],
        owners: &[u8],
        slack: u8,
        dominating: &mut [u8],
    ) -> ListVerdict;
    fn check_prices(&self, sheet: &[u8], owners: &[u8], prices: &[u8]) -> PriceVerdict;
}

/// The second program, by its checks over flat lists.
#[derive(Debug)]
pub struct Second;

impl Checks for Second {
    fn check_list(
        &self,
        sheet: &[u8],
        owners: &[u8],
        slack: u8,
        dominating: &mut [u8],
    ) -> ListVerdict {
        plain_checks::check_list(sheet, owners, slack, dominating)
    }

    fn check_prices(&self, sheet: &[u8], owners: &[u8], prices: &[u8]) -> PriceVerdict {
        plain_checks::check_prices(sheet, owners, prices)
    }
}

#[derive(Debug)]
pub struct Library {
    allocate: c::Allocate,
    check_list: c::CheckList,
    check_prices: c::CheckPrices,
    join: c::Join,
    measures: c::Measures,
}

/// What `rt lib` writes in crates/capi.
pub const PROVED: Library = Library {
    allocate: c::shares_allocate,
    check_list: c::shares_check_list,
    check_prices: c::shares_check_prices,
    join: c::shares_join,
    measures: c::shares_measures,
};

/// bench/plain.c.
pub const PLAIN: Library = Library {
    allocate: c::plain_allocate,
    check_list: c::plain_check_list,
    check_prices: c::plain_check_prices,
    join: c::plain_join,
    measures: c::plain_measures,
};

/// The kinds of verdicts, as include/shares.h numbers them.
mod kind {
    pub const HOLDS: u8 = 1;
    pub const UNFAIR: u8 = 2;
    pub const WASTEFUL: u8 = 3;
    pub const ACCEPTED: u8 = 4;
    pub const OFF_PRICE: u8 = 5;
    pub const PRICE_ENVY: u8 = 6;
}

/// The low byte of a verdict is its refusal number, the next byte its kind.
fn parts(number: u32) -> (u8, u8, usize, usize) {
    let [refusal, kind, first, second] = number.to_le_bytes();
    (refusal, kind, usize::from(first), usize::from(second))
}

impl Library {
    /// 0 or the refusal number. Prices are bytes, four to a price.
    pub fn allocate(
        &self,
        sheet: &[u8],
        owners: &mut [u8],
        prices: &mut [u8],
        scratch: &mut [u8],
        moves: &mut u64,
        cuts: &mut u8,
    ) -> u8 {
        // SAFETY: each pointer comes with its slice's length or points to one number, and the call keeps none of them.
        unsafe {
            (self.allocate)(
                sheet.as_ptr(),
                sheet.len(),
                owners.as_mut_ptr(),
                owners.len(),
                prices.as_mut_ptr(),
                prices.len(),
                scratch.as_mut_ptr(),
                scratch.len(),
                moves,
                cuts,
            )
        }
    }

    /// 0 or the refusal number. `written` is the length of the joined sheet.
    pub fn join(&self, pair: &Pair, joined: &mut [u8], written: &mut usize) -> u8 {
        let Pair { first, second } = pair;
        // SAFETY: as in `Library::allocate`.
        unsafe {
            (self.join)(
                first.as_ptr(),
                first.len(),
                second.as_ptr(),
                second.len(),
                joined.as_mut_ptr(),
                joined.len(),
                written,
            )
        }
    }

    /// 0 or the refusal number.
    pub fn measures(&self, sheet: &[u8], measures: &mut [u32; MAX_AGENTS]) -> u8 {
        // SAFETY: as in `Library::allocate`; the list has an entry for each of 32 agents.
        unsafe { (self.measures)(sheet.as_ptr(), sheet.len(), measures.as_mut_ptr()) }
    }
}

impl Checks for Library {
    fn check_list(
        &self,
        sheet: &[u8],
        owners: &[u8],
        slack: u8,
        dominating: &mut [u8],
    ) -> ListVerdict {
        // SAFETY: as in `Library::allocate`.
        let number = unsafe {
            (self.check_list)(
                sheet.as_ptr(),
                sheet.len(),
                owners.as_ptr(),
                owners.len(),
                slack,
                dominating.as_mut_ptr(),
                dominating.len(),
            )
        };
        match parts(number) {
            (0, kind::HOLDS, 0, 0) => ListVerdict::Holds,
            (0, kind::UNFAIR, i, j) => ListVerdict::Unfair(i, j),
            (0, kind::WASTEFUL, 0, 0) => ListVerdict::Wasteful,
            (refusal, 0, 0, 0) if refusal != 0 => ListVerdict::Refused(refusal),
            _ => panic!("no verdict: {number:#x}"),
        }
    }

    fn check_prices(&self, sheet: &[u8], owners: &[u8], prices: &[u8]) -> PriceVerdict {
        // SAFETY: as in `Library::allocate`.
        let number = unsafe {
            (self.check_prices)(
                sheet.as_ptr(),
                sheet.len(),
                owners.as_ptr(),
                owners.len(),
                prices.as_ptr(),
                prices.len(),
            )
        };
        match parts(number) {
            (0, kind::ACCEPTED, 0, 0) => PriceVerdict::Accepted,
            (0, kind::OFF_PRICE, low, high) => PriceVerdict::OffPrice(low + 256 * high),
            (0, kind::PRICE_ENVY, i, j) => PriceVerdict::PriceEnvy(i, j),
            (refusal, 0, 0, 0) if refusal != 0 => PriceVerdict::Refused(refusal),
            _ => panic!("no verdict: {number:#x}"),
        }
    }
}
