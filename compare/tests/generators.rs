//! The comparison's own sheets, by the second program alone: what is meant to
//! keep the rules does, and each fault has its number. Scratch has every length
//! near its limit, slack every number up to one past its limit, and weights for a
//! measure are at both ends.

use compare::damage::{harm, Fault, FAULTS};
use compare::lent::{enough_scratch, short_scratch};
use compare::lists::{damaged_given, slack};
use compare::random::{factored_weights, Random};
use compare::{header, shapes, sizes};
use reference::compose;
use reference::limits::MAX_CHORES;
use reference::sheet::{row_bytes, Sheet};
use std::collections::BTreeSet;

const SHEETS: usize = 2_000;

fn number_of(sheet: &[u8]) -> u8 {
    Sheet::parse(sheet).err().unwrap_or(0)
}

#[test]
fn sheets_keep_the_rules() {
    let mut random = Random::new(71);
    for make in [
        shapes::small_sheet,
        shapes::medium_sheet,
        shapes::large_sheet,
        shapes::long_sheet,
    ] {
        for _ in 0..SHEETS / 4 {
            let sheet = make(&mut random);
            let parsed = Sheet::parse(&sheet).expect("the sheet keeps the rules");
            assert_eq!(parsed.agents, header::agents(&sheet));
            assert_eq!(parsed.chores, header::chores(&sheet));
        }
    }
}

#[test]
fn chores_around_full_bytes() {
    let mut random = Random::new(72);
    for most in [0, 1, 7, 8, 9, 17, 65, 200] {
        let numbers: Vec<usize> = (0..SHEETS)
            .map(|_| sizes::chores(&mut random, most))
            .collect();
        let around = sizes::around_bytes(most).all(|chores| numbers.contains(&chores));
        assert!(
            around && numbers.iter().all(|&chores| chores <= most),
            "{most}"
        );
    }
    for _ in 0..SHEETS {
        let chores = sizes::many_chores(&mut random);
        assert!((200..=MAX_CHORES).contains(&chores));
    }
}

#[test]
fn scratch_around_its_limit() {
    let mut random = Random::new(75);
    let mut made = |length: fn(&mut Random) -> usize| -> BTreeSet<usize> {
        (0..SHEETS).map(|_| length(&mut random)).collect()
    };
    let enough = made(enough_scratch);
    assert!(enough.is_superset(&BTreeSet::from([64, 65, 1_024])));
    assert!(enough.range(..64).next().is_none() && enough.range(66..).count() > 200);
    let short = (0..2).chain(31..64).collect();
    assert_eq!(made(short_scratch), short);
}

#[test]
fn slacks_around_the_limit() {
    let mut random = Random::new(76);
    let slacks: BTreeSet<u8> = (0..SHEETS).map(|_| slack(&mut random)).collect();
    assert_eq!(slacks, (0..=9).collect());
    let any = |_| damaged_given(&mut random).slack;
    let any: BTreeSet<u8> = (0..SHEETS).map(any).collect();
    assert!(any.is_superset(&slacks) && any.contains(&u8::MAX));
    assert!(any.len() > 100, "{any:?}");
}

#[test]
fn weights_for_a_measure() {
    let mut random = Random::new(77);
    let weights: BTreeSet<(u16, u16)> =
        (0..SHEETS).map(|_| factored_weights(&mut random)).collect();
    let ends = BTreeSet::from([(1, 2), (1, 3), (1, 1_000), (2, 4), (500, 1_000)]);
    assert!(weights.is_superset(&ends), "{weights:?}");
    assert!(weights.len() > 100, "{weights:?}");
    for &(easy, difficult) in &weights {
        assert!(difficult.is_multiple_of(easy), "{easy} {difficult}");
        let sheet = compose::sheet(easy, difficult, &[""]);
        assert_eq!(number_of(&sheet), 0, "{easy} {difficult}");
    }
}

/// What a fault alone makes of a sheet that keeps the rules.
fn expected(sheet: &[u8], fault: Fault) -> Vec<u8> {
    let chores = header::chores(sheet);
    match fault {
        Fault::Agents => vec![1],
        Fault::Chores => vec![2],
        Fault::Weights => vec![3],
        Fault::Length | Fault::Cut => vec![5],
        Fault::ShortRow => vec![if chores > 0 { 5 } else { 0 }],
        Fault::Bits => vec![if chores.is_multiple_of(8) { 0 } else { 4 }],
        Fault::Swapped => vec![of_swapped(chores)],
        // The length is wrong in any case, but what is read as the number of
        // chores and the weights may come first.
        Fault::Unpacked if chores < 256 => vec![2, 3, 5],
        Fault::Unpacked => vec![0],
        Fault::Any => vec![0, 1, 2, 3, 4, 5],
    }
}

fn of_swapped(chores: usize) -> u8 {
    let swapped = usize::from((chores as u16).swap_bytes());
    match swapped {
        _ if swapped == chores => 0,
        _ if swapped > MAX_CHORES => 2,
        _ if row_bytes(swapped) != row_bytes(chores) => 5,
        _ => panic!("{chores} chores"),
    }
}

#[test]
fn each_fault_has_its_number() {
    let mut random = Random::new(73);
    for fault in FAULTS.into_iter().cycle().take(FAULTS.len() * SHEETS) {
        let sheet = match random.below(20) {
            0 => shapes::long_sheet(&mut random),
            _ => shapes::small_sheet(&mut random),
        };
        let mut harmed = sheet.clone();
        harm(&mut random, &mut harmed, fault);
        let number = number_of(&harmed);
        let expected = expected(&sheet, fault);
        assert!(expected.contains(&number), "{number} {fault:?} {harmed:?}");
    }
}

/// A fault of any bytes, whatever was done to them before, ends.
#[test]
fn faults_of_what_is_left() {
    let mut random = Random::new(74);
    for length in 0..40 {
        for fault in FAULTS {
            let mut bytes = random.bytes(length);
            harm(&mut random, &mut bytes, fault);
        }
    }
}
