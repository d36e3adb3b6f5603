//! Each refusal number, the order among them, and what a refusal keeps.

mod common;

use common::{as_bytes, b, c, faulty_sheet, first_fault, share, SHEET_FAULTS};
use reference::limits::{MAX_SLACK, MIN_SCRATCH};
use reference::{allocate, check_list, check_prices, compose, plain_checks, price_bytes, record};
use reference::{ListVerdict, PriceVerdict, ShareOut};

#[test]
fn allocate_finds_the_first_of_any_faults() {
    let numbers = [&SHEET_FAULTS[..], &[8, 8, 8]].concat();
    for faults in 1..1_usize << numbers.len() {
        let has = |fault: usize| faults >> fault & 1 == 1;
        let sheet = faulty_sheet(2, 4, faults);
        let mut owners = vec![77; if has(6) { 3 } else { 4_001 }];
        let mut prices = vec![78; if has(7) { 3 } else { 4_001 }];
        let mut scratch = vec![79; if has(8) { MIN_SCRATCH - 1 } else { MIN_SCRATCH }];
        let expected = first_fault(faults, &numbers).unwrap();
        let answer = allocate(&sheet, &mut owners, &mut prices, &mut scratch);
        assert_eq!(answer, ShareOut::Refused(expected), "faults {faults:b}");
        assert!(owners.iter().all(|&entry| entry == 77));
        assert!(prices.iter().all(|&entry| entry == 78));
        assert!(scratch.iter().all(|&entry| entry == 79));
    }
}

#[test]
fn a_recorded_share_out_finds_the_first_of_any_faults() {
    let numbers = [&SHEET_FAULTS[..], &[8, 8, 8, 11]].concat();
    for faults in 1..1_usize << numbers.len() {
        let has = |fault: usize| faults >> fault & 1 == 1;
        let sheet = faulty_sheet(2, 4, faults);
        let mut owners = vec![77; if has(6) { 3 } else { 4_001 }];
        let mut prices = vec![78; if has(7) { 3 } else { 4_001 }];
        let mut scratch = vec![79; if has(8) { MIN_SCRATCH - 1 } else { MIN_SCRATCH }];
        // Where the sheet is accepted, it takes 2 moves.
        let mut made = vec![80; if has(9) { 11 } else { 12 }];
        let expected = first_fault(faults, &numbers).unwrap();
        let answer = record::allocate(&sheet, &mut owners, &mut prices, &mut scratch, &mut made);
        assert_eq!(answer, ShareOut::Refused(expected), "faults {faults:b}");
        assert!(owners.iter().all(|&entry| entry == 77));
        assert!(prices.iter().all(|&entry| entry == 78));
        assert!(scratch.iter().all(|&entry| entry == 79));
        assert!(made.iter().all(|&entry| entry == 80));
    }
}

#[test]
fn check_list_finds_the_first_of_any_faults() {
    let numbers = [&SHEET_FAULTS[..], &[6, 7, 8, 13]].concat();
    for faults in 1..1_usize << numbers.len() {
        let has = |fault: usize| faults >> fault & 1 == 1;
        let sheet = faulty_sheet(2, 4, faults);
        // Where the sheet is accepted, it has 4 chores and 2 agents.
        let mut owners = vec![1; if has(6) { 5 } else { 4 }];
        owners[3] = if has(7) { 3 } else { 2 };
        let mut shown = vec![77; if has(8) { 3 } else { 6 }];
        let slack = if has(9) { MAX_SLACK + 1 } else { MAX_SLACK };
        let expected = first_fault(faults, &numbers).unwrap();
        for check in [check_list, plain_checks::check_list] {
            let answer = check(&sheet, &owners, slack, &mut shown);
            assert_eq!(answer, ListVerdict::Refused(expected), "faults {faults:b}");
            assert!(shown.iter().all(|&entry| entry == 77));
        }
    }
}

#[test]
fn check_prices_finds_the_first_of_any_faults() {
    let numbers = [&SHEET_FAULTS[..], &[6, 7, 10, 10]].concat();
    for faults in 1..1_usize << numbers.len() {
        let has = |fault: usize| faults >> fault & 1 == 1;
        let sheet = faulty_sheet(2, 4, faults);
        let mut owners = vec![1; if has(6) { 3 } else { 4 }];
        owners[0] = if has(7) { 0 } else { 2 };
        let mut prices = vec![6; if has(8) { 5 } else { 4 }];
        prices[1] = if has(9) { 0 } else { 6 };
        let expected = first_fault(faults, &numbers).unwrap();
        let bytes = as_bytes(&prices);
        for answer in [
            check_prices(&sheet, &owners, &prices),
            price_bytes::check(&sheet, &owners, &bytes),
            plain_checks::check_prices(&sheet, &owners, &bytes),
        ] {
            assert_eq!(answer, PriceVerdict::Refused(expected), "faults {faults:b}");
        }
    }
}

#[test]
fn short_sheets() {
    for length in 0..7 {
        assert_eq!(share(&c()[..length]), Err(5));
        // Also where the bytes that are there break another rule.
        assert_eq!(share(&[0, 255, 255, 0, 0, 0][..length.min(6)]), Err(5));
    }
}

#[test]
fn sheet_headers() {
    // Agents, chores, easy weight, difficult weight, with no marks.
    let table: [(u8, u16, u16, u16, u8); 15] = [
        (0, 0, 1, 2, 1),
        (33, 0, 1, 2, 1),
        (255, 65_535, 0, 0, 1),
        (1, 4_001, 1, 2, 2),
        (1, 4_096, 1, 2, 2),
        (32, 65_535, 0, 0, 2),
        (1, 1, 0, 2, 3),
        (1, 1, 0, 0, 3),
        (1, 1, 2, 1, 3),
        (1, 1, 1_000, 1_000, 3),
        (1, 1, 999, 1_001, 3),
        (1, 1, 256, 255, 3),
        (1, 1, 999, 1_000, 5),
        (1, 256, 999, 1_000, 5),
        (1, 4_000, 999, 1_000, 5),
    ];
    for (agents, chores, easy, difficult, number) in table {
        let mut sheet = vec![agents];
        for two_bytes in [chores, easy, difficult] {
            sheet.extend(two_bytes.to_be_bytes());
        }
        assert_eq!(share(&sheet), Err(number), "{sheet:?}");
    }
}

#[test]
fn a_share_out_keeps_what_lies_beyond() {
    let mut owners = [77; 9];
    let mut prices = [78; 8];
    let mut scratch = [79; MIN_SCRATCH + 3];
    let answer = allocate(&b(), &mut owners, &mut prices, &mut scratch);
    assert_eq!(answer, ShareOut::Shared { moves: 2, cuts: 0 });
    assert_eq!(owners, [2, 2, 1, 1, 77, 77, 77, 77, 77]);
    assert_eq!(prices, [3, 3, 3, 3, 78, 78, 78, 78]);
    assert_eq!(scratch, [0; MIN_SCRATCH + 3]);
}

#[test]
fn no_chores_need_no_entries() {
    let sheet = compose::sheet(1, 2, &["", ""]);
    let mut scratch = [1; MIN_SCRATCH];
    let answer = allocate(&sheet, &mut [], &mut [], &mut scratch);
    assert_eq!(answer, ShareOut::Shared { moves: 0, cuts: 0 });
    assert_eq!(scratch, [0; MIN_SCRATCH]);
    for check in [check_list, plain_checks::check_list] {
        assert_eq!(check(&sheet, &[], 0, &mut []), ListVerdict::Holds);
    }
    for check in [price_bytes::check, plain_checks::check_prices] {
        assert_eq!(check(&sheet, &[], &[]), PriceVerdict::Accepted);
    }
}
