//! Lists that respect the measure: the refusal number, both properties of the list,
//! and every entry after it. Which list it is, is left free, so each program's own
//! is judged, and the two need not be the same.

use super::measures::weighted;
use crate::lent::Lent;
use crate::random::Random;
use crate::{damage, header, shapes};
use reference::measured_list;
use reference::measured_list::{is_wasteful, within_measures};

/// What became of a sheet.
#[derive(Debug)]
pub struct Listed {
    pub sheet: Vec<u8>,
    /// Entries for the owners.
    pub lent: usize,
    /// The list, or the refusal number.
    pub answer: Result<Vec<u8>, u8>,
}

impl Listed {
    /// 0 for none.
    pub fn number(&self) -> u8 {
        number(&self.answer)
    }
}

fn number(answer: &Result<Vec<u8>, u8>) -> u8 {
    answer.as_ref().err().copied().unwrap_or(0)
}

/// One sheet through both programs. The library's list is the same whatever the
/// lent one held.
pub fn compared(random: &mut Random, sheet: Vec<u8>, lent: usize) -> Listed {
    let second = measured_list(&sheet, lent);
    let answer = written(random, &sheet, lent, number(&second));
    if let (Ok(owners), Ok(others)) = (&answer, &second) {
        assert_qualifies(&sheet, owners);
        assert_qualifies(&sheet, others);
        let again = written(random, &sheet, lent, 0);
        assert_eq!(again, answer, "{sheet:?}");
    }
    Listed {
        sheet,
        lent,
        answer,
    }
}

/// What the library writes to the first m entries of a list of any content. The
/// other entries stay; with a refusal, by the number that is expected, all do.
fn written(random: &mut Random, sheet: &[u8], length: usize, expected: u8) -> Result<Vec<u8>, u8> {
    let mut lent = Lent::bytes(random, length);
    let number = crate::measured_list(sheet, lent.part());
    assert_eq!(number, expected, "{sheet:?}, lent {length}");
    let answer = match number {
        0 => Ok(lent.now()[..header::chores(sheet)].to_vec()),
        number => Err(number),
    };
    let mut all = lent.at_first().to_vec();
    if let Ok(owners) = &answer {
        all[..owners.len()].copy_from_slice(owners);
    }
    assert!(
        lent.holds(&all),
        "{sheet:?}: {:?} for {all:?}, or a byte beside them",
        lent.now()
    );
    answer
}

/// Nobody's chores cost it more than its own measure, and no list dominates.
pub fn assert_qualifies(sheet: &[u8], owners: &[u8]) {
    assert!(within_measures(sheet, owners), "{sheet:?} {owners:?}");
    assert!(
        !is_wasteful(sheet, owners),
        "wasteful: {sheet:?} {owners:?}"
    );
}

/// One that keeps a sheet's own rules: few lists mostly, or of any size. Enough is
/// lent for it mostly.
pub fn any(random: &mut Random) -> Listed {
    let make = match random.below(2_000) {
        0 => shapes::largest_sheet,
        1..=20 => shapes::long_sheet,
        21..=500 => shapes::any_sheet,
        _ => shapes::tiny_sheet,
    };
    let sheet = weighted(random, make, 90);
    let lent = near(random, header::chores(&sheet));
    compared(random, sheet, lent)
}

/// One with faults, lent any length.
pub fn damaged(random: &mut Random) -> Listed {
    let sheet = weighted(random, shapes::small_sheet, 40);
    let chores = header::chores(&sheet);
    let sheet = damage::damaged(random, sheet);
    let lent = match random.below(2) {
        0 => near(random, chores),
        _ => random.below(chores + 3),
    };
    compared(random, sheet, lent)
}

/// As many entries as there are chores, or more; now and then fewer.
fn near(random: &mut Random, chores: usize) -> usize {
    match random.below(10) {
        0 => chores.saturating_sub(1),
        1 => random.below(chores + 1),
        2..=5 => chores,
        _ => chores + 1 + random.below(40),
    }
}
