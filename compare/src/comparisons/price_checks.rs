//! The price check: the verdict, and that an accepted list holds at every slack
//! but 0.

use crate::comparisons::list_checks::assert_holds;
use crate::lists::{bytes, damaged_given, near_accepted, Given};
use crate::random::{self, Random};
use crate::{Second, PROVED};
use reference::limits::{MAX_AGENTS, MAX_CHORES, MAX_PRICE};
use reference::{compose, price_bytes, PriceVerdict};

/// The library's verdict, which the second program shares by both its checks.
pub fn compared(given: &Given) -> PriceVerdict {
    let verdict = given.check_prices(&PROVED);
    for expected in [
        price_bytes::check(&given.sheet, &given.owners, &given.prices),
        given.check_prices(&Second),
    ] {
        assert_eq!(verdict, expected, "{given:?}");
    }
    if verdict == PriceVerdict::Accepted {
        assert_holds(&given.sheet, &given.owners);
    }
    verdict
}

/// Owners and prices near the share-out's.
pub fn near_share_out(
    random: &mut Random,
    make: fn(&mut Random) -> Vec<u8>,
) -> (Given, PriceVerdict) {
    let sheet = make(random);
    let (owners, prices) = near_accepted(&sheet, random);
    of_prices(sheet, owners, prices)
}

/// Sums at their greatest: every price at its limit, and a first agent who holds
/// some of the chores, and so many in a hundred of the others.
pub fn greatest(random: &mut Random, percent: usize) -> (Given, PriceVerdict) {
    let agents = [1, 2, 3, MAX_AGENTS][percent % 4];
    let sheet = compose::sheet(999, 1000, &vec!["e".repeat(MAX_CHORES); agents]);
    let mut owners = random::owners(random, agents, MAX_CHORES);
    owners.iter_mut().for_each(|owner| {
        if random.chance(percent) {
            *owner = 1;
        }
    });
    of_prices(sheet, owners, bytes(vec![MAX_PRICE; MAX_CHORES]))
}

/// What breaks no rule.
fn of_prices(sheet: Vec<u8>, owners: Vec<u8>, prices: Vec<u8>) -> (Given, PriceVerdict) {
    let given = Given {
        sheet,
        owners,
        slack: 0,
        prices,
        lent: 0,
    };
    let verdict = compared(&given);
    if let PriceVerdict::Refused(number) = verdict {
        panic!("refused {number}: {given:?}");
    }
    (given, verdict)
}

/// With any faults.
pub fn damaged(random: &mut Random) -> (Given, PriceVerdict) {
    let given = damaged_given(random);
    let verdict = compared(&given);
    (given, verdict)
}
