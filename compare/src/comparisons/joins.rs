//! The join of two strands: the joined sheet and all lent memory. Each joined
//! sheet is one that can be shared out.

use super::share_outs::with_enough;
use crate::lent::Lent;
use crate::random::Random;
use crate::strands::{any_pair, lent_length, Pair};
use crate::{header, Library, PROVED};
use reference::sheet::Sheet;
use reference::{join, plain, Join, ShareOut};

/// Joined sheets of up to so many marks are shared out.
const SMALL: usize = 160;

/// The sheet that a library joins, or its refusal number. All that was lent is
/// held to what the second program leaves.
pub fn joined(
    library: &Library,
    random: &mut Random,
    pair: &Pair,
    length: usize,
) -> Result<Vec<u8>, u8> {
    let mut lent = Lent::bytes(random, length);
    let held = random.word() as usize;
    let mut expected = lent.at_first().to_vec();
    let told = match join(&pair.first, &pair.second, &mut expected) {
        Join::Refused(number) => (number, held),
        Join::Joined { written } => (0, written),
    };
    let mut written = held;
    let number = library.join(pair, lent.part(), &mut written);
    let got = (number, written);
    assert_eq!(got, told, "number, written of {pair:?}, lent {length}");
    assert!(
        lent.holds(&expected),
        "{pair:?}: {:?} for {expected:?}, or a byte beside them",
        lent.now()
    );
    match number {
        0 => Ok(lent.now()[..written].to_vec()),
        number => Err(number),
    }
}

/// What became of two strands.
#[derive(Debug)]
pub struct Joined {
    pub pair: Pair,
    /// Bytes for the joined sheet.
    pub lent: usize,
    /// The joined sheet, or the refusal number.
    pub answer: Result<Vec<u8>, u8>,
    pub is_shared_out: bool,
}

impl Joined {
    /// 0 for none.
    pub fn number(&self) -> u8 {
        self.answer.as_ref().err().copied().unwrap_or(0)
    }
}

/// Any two strands, lent any length.
pub fn any(random: &mut Random) -> Joined {
    let pair = any_pair(random);
    let lent = lent_length(random, &pair);
    let answer = joined(&PROVED, random, &pair, lent);
    let sheet = answer.as_ref().ok();
    let is_shared_out = sheet.is_some_and(|sheet| shared_out(random, sheet));
    Joined {
        pair,
        lent,
        answer,
        is_shared_out,
    }
}

/// Whether the joined sheet is small enough to be shared out, by both programs.
/// If not, it keeps the rules all the same.
fn shared_out(random: &mut Random, sheet: &[u8]) -> bool {
    if header::agents(sheet) * header::chores(sheet) > SMALL {
        assert!(Sheet::parse(sheet).is_ok(), "{sheet:?}");
        return false;
    }
    if let ShareOut::Refused(number) = with_enough(random, plain::work, sheet) {
        panic!("refused {number}: {sheet:?}");
    }
    true
}
