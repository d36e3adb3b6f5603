//! Everyone's own measure: the numbers, and the entries of agents that the sheet
//! does not have.

use crate::lent::Lent;
use crate::random::Random;
use crate::{damage, shapes, Library};
use reference::limits::MAX_AGENTS;
use reference::measures;

/// The measures in order of agent, or the refusal number.
pub type Measured = Result<Vec<u32>, u8>;

/// The refusal number; 0 for none.
pub fn number(answer: &Measured) -> u8 {
    answer.as_ref().err().copied().unwrap_or(0)
}

/// What a library answers and leaves in the lent list, which is what the second
/// program's answer comes to.
pub fn compared(library: &Library, random: &mut Random, sheet: &[u8]) -> Measured {
    let mut lent = Lent::new(MAX_AGENTS, || random.word() as u32);
    let mut expected = lent.at_first().to_vec();
    let answer = measures(sheet);
    if let Ok(all) = &answer {
        expected[..all.len()].copy_from_slice(all);
    }
    let got = library.measures(sheet, lent.array());
    assert_eq!(got, number(&answer), "{sheet:?}");
    assert!(
        lent.holds(&expected),
        "{sheet:?}: {:?} for {expected:?}, or an entry beside them",
        lent.now()
    );
    answer
}

/// One that keeps a sheet's own rules: few partitions mostly, or of any size.
pub fn any(library: &Library, random: &mut Random) -> (Vec<u8>, Measured) {
    let make = match random.below(2_000) {
        0 => shapes::largest_sheet,
        1..=20 => shapes::long_sheet,
        21..=700 => shapes::any_sheet,
        _ => shapes::tiny_sheet,
    };
    let sheet = weighted(random, make, 85);
    let answer = compared(library, random, &sheet);
    (sheet, answer)
}

/// One with faults.
pub fn damaged(library: &Library, random: &mut Random) -> (Vec<u8>, Measured) {
    let sheet = weighted(random, shapes::small_sheet, 40);
    let sheet = damage::damaged(random, sheet);
    let answer = compared(library, random, &sheet);
    (sheet, answer)
}

/// So many in a hundred have weights of which one is a multiple of the other, the
/// rest any weights.
pub fn weighted(random: &mut Random, make: fn(&mut Random) -> Vec<u8>, percent: usize) -> Vec<u8> {
    let sheet = make(random);
    if random.chance(percent) {
        return shapes::factored(random, sheet);
    }
    sheet
}
