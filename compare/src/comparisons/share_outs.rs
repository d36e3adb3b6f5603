//! The share-out of a sheet: owners, prices, moves, cuts and all lent memory. No
//! share-out takes more moves than it may, and both checks pass what it returns.

use crate::bound::assert_few;
use crate::comparisons::list_checks::assert_holds;
use crate::damage::{harm, Fault};
use crate::lent::{any, assert_all_hold, enough, short, Lengths, Lent};
use crate::random::Random;
use crate::{header, shapes, Checks, PROVED};
use reference::price_bytes::PRICE_BYTES;
use reference::share_out::Way;
use reference::sheet::Sheet;
use reference::{plain, price_bytes, share_out, PriceVerdict, ShareOut};

/// One sheet through both programs, with every byte that was lent compared.
pub fn compared(random: &mut Random, way: Way, sheet: &[u8], lengths: Lengths) -> ShareOut {
    let mut lent = lengths.map(|length| Lent::bytes(random, length));
    let [mut owners, mut prices, mut scratch] =
        lent.each_ref().map(|lent| lent.at_first().to_vec());
    let answer = price_bytes::allocate(way, sheet, &mut owners, &mut prices, &mut scratch);
    let told = (random.word(), random.byte());
    let expected = match answer {
        ShareOut::Refused(number) => (number, told.0, told.1),
        ShareOut::Shared { moves, cuts } => (0, moves, cuts),
    };
    let (mut moves, mut cuts) = told;
    let [of_owners, of_prices, of_scratch] = lent.each_mut().map(Lent::part);
    let number = PROVED.allocate(
        sheet, of_owners, of_prices, of_scratch, &mut moves, &mut cuts,
    );
    let got = (number, moves, cuts);
    assert_eq!(
        got, expected,
        "number, moves, cuts of {sheet:?}, lent {lengths:?}"
    );
    assert_all_hold(&lent, [owners, prices, scratch], sheet);
    if let ShareOut::Shared { moves, cuts } = answer {
        assert_few(sheet, moves, cuts);
        assert_passes(sheet, lent[0].now(), lent[1].now());
    }
    answer
}

/// The library's own checks pass the first m owners and prices that it wrote.
fn assert_passes(sheet: &[u8], owners: &[u8], prices: &[u8]) {
    let chores = header::chores(sheet);
    let (owners, prices) = (&owners[..chores], &prices[..PRICE_BYTES * chores]);
    let verdict = PROVED.check_prices(sheet, owners, prices);
    assert_eq!(verdict, PriceVerdict::Accepted, "{sheet:?}");
    assert_holds(sheet, owners);
}

/// One with enough lent for it.
pub fn with_enough(random: &mut Random, way: Way, sheet: &[u8]) -> ShareOut {
    let lengths = enough(random, header::chores(sheet));
    compared(random, way, sheet, lengths)
}

/// One that keeps the rules, with enough lent for it, so that it is shared out.
pub fn kept(
    random: &mut Random,
    way: Way,
    make: impl Fn(&mut Random) -> Vec<u8>,
) -> (Vec<u8>, ShareOut) {
    let sheet = make(random);
    let answer = with_enough(random, way, &sheet);
    if let ShareOut::Refused(number) = answer {
        panic!("refused {number}: {sheet:?}");
    }
    (sheet, answer)
}

/// One with these faults.
pub fn damaged(random: &mut Random, faults: &[Fault]) -> (Vec<u8>, ShareOut) {
    let mut sheet = if random.chance(2) {
        shapes::long_sheet(random)
    } else {
        shapes::small_sheet(random)
    };
    for &fault in faults {
        harm(random, &mut sheet, fault);
    }
    let lengths = some_lengths(random, &sheet);
    let answer = compared(random, plain::work, &sheet, lengths);
    (sheet, answer)
}

/// Enough for a sheet that is still one mostly, or of any length.
fn some_lengths(random: &mut Random, sheet: &[u8]) -> Lengths {
    match Sheet::parse(sheet) {
        Ok(sheet) if random.chance(80) => enough(random, sheet.chores),
        _ => any(random),
    }
}

/// One with a short list or short scratch, often too short.
pub fn with_short_lists(random: &mut Random) -> (Vec<u8>, ShareOut) {
    let sheet = shapes::small_sheet(random);
    let lengths = short(random, header::chores(&sheet));
    let answer = compared(random, share_out::work, &sheet, lengths);
    (sheet, answer)
}
