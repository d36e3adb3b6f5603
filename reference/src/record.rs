//! The share-out with a record of its moves, six bytes each.

use crate::algorithm::Made;
use crate::refusal;
use crate::share_out::{accepted, hand_over, owner_byte, work_telling, ShareOut, Worked};
use crate::sheet::Sheet;

pub const MOVE_BYTES: usize = 6;

/// The result for an accepted sheet, with its whole record.
#[derive(Debug, Clone, PartialEq, Eq)]
pub struct Recorded {
    pub worked: Worked,
    pub record: Vec<u8>,
}

/// Works an accepted sheet and writes down every move.
pub fn work(sheet: &Sheet, scratch: &mut [u8]) -> Recorded {
    let mut record = Vec::new();
    let worked = work_telling(sheet, scratch, &mut |made| record.extend(bytes(made)));
    Recorded { worked, record }
}

/// The chore, the giver, the receiver, the round and the step, from 1.
fn bytes(made: Made) -> [u8; MOVE_BYTES] {
    let chore = u16::try_from(made.handed.chore + 1).expect("a chore's number is two bytes");
    let [high, low] = chore.to_be_bytes();
    [
        high,
        low,
        owner_byte(made.handed.giver),
        owner_byte(made.handed.receiver),
        u8::try_from(made.round).expect("a round's number is a byte"),
        made.step as u8,
    ]
}

/// Refused: nothing lent changes. Shared: as without a record, and the moves
/// are at the start of the record, whose rest is kept.
pub fn allocate(
    sheet: &[u8],
    owners: &mut [u8],
    prices: &mut [u32],
    scratch: &mut [u8],
    record: &mut [u8],
) -> ShareOut {
    allocate_by(work, sheet, owners, prices, scratch, record)
}

/// The share-out with any way to work a sheet.
pub fn allocate_by(
    work: impl FnOnce(&Sheet, &mut [u8]) -> Recorded,
    sheet: &[u8],
    owners: &mut [u8],
    prices: &mut [u32],
    scratch: &mut [u8],
    record: &mut [u8],
) -> ShareOut {
    let sheet = match accepted(sheet, owners, prices, scratch) {
        Ok(sheet) => sheet,
        Err(number) => return ShareOut::Refused(number),
    };
    // In a copy of the scratch: the moves may not fit, and then it is kept.
    let recorded = work(&sheet, &mut scratch.to_vec());
    let Some(start) = record.get_mut(..recorded.record.len()) else {
        return ShareOut::Refused(refusal::RECORD);
    };
    start.copy_from_slice(&recorded.record);
    hand_over(&recorded.worked, owners, prices, scratch)
}
