//! Every sheet to try of the scope document, and one that moves in step 2a.

mod common;

use common::{a, b, c, d, e, f, g, share};
use reference::limits::MIN_SCRATCH;
use reference::{allocate, cases, check_list, check_prices, compose};
use reference::{ListVerdict, PriceVerdict, ShareOut};

/// A sheet with its owners, prices, moves and cuts.
type Row = (Vec<u8>, &'static [u8], &'static [u32], u64, u8);

#[test]
fn lettered_sheets() {
    let table: [Row; 7] = [
        (a(), &[], &[], 0, 0),
        (b(), &[2, 2, 1, 1], &[3, 3, 3, 3], 2, 0),
        (c(), &[2, 2, 1, 1, 2], &[3, 3, 3, 3, 1], 3, 1),
        (d(), &[2, 1, 1], &[2, 2, 2], 1, 0),
        (e(), &[1, 2], &[2, 2], 0, 0),
        (f(), &[2, 1], &[4, 2], 1, 0),
        (g(), &[3, 1, 1, 2, 3], &[3, 3, 3, 3, 3], 1, 0),
    ];
    for (sheet, owners, prices, moves, cuts) in table {
        let expected = (owners.to_vec(), prices.to_vec(), moves, cuts);
        assert_eq!(share(&sheet), Ok(expected));
    }
}

#[test]
fn a_sheet_that_moves_in_step_2a() {
    let sheet = compose::sheet(1, 3, &["deddddddd", "ddddddddd", "ddeddddde"]);
    let owners = vec![3, 1, 3, 1, 1, 3, 2, 2, 3];
    let prices = vec![3, 1, 1, 3, 3, 3, 3, 3, 1];
    assert_eq!(share(&sheet), Ok((owners, prices, 7, 2)));
}

#[test]
fn lists_on_d_and_e() {
    let mut shown = [9; 3];
    assert_eq!(
        check_list(&d(), &[1, 1, 1], 1, &mut shown),
        ListVerdict::Unfair(1, 2)
    );
    assert_eq!(
        check_list(&d(), &[1, 1, 2], 1, &mut shown),
        ListVerdict::Holds
    );
    assert_eq!(shown, [9; 3]);
    assert_eq!(
        check_list(&e(), &[2, 1], 1, &mut shown),
        ListVerdict::Wasteful
    );
    assert_eq!(shown, [1, 2, 9]);
}

#[test]
fn prices_on_c() {
    let owners = [2, 2, 1, 1, 2];
    let accepted = check_prices(&c(), &owners, &[3, 3, 3, 3, 1]);
    assert_eq!(accepted, PriceVerdict::Accepted);
    let off_price = check_prices(&c(), &owners, &[3, 3, 3, 3, 3]);
    assert_eq!(off_price, PriceVerdict::OffPrice(1));
}

#[test]
fn equal_weights() {
    assert_eq!(share(&compose::sheet(2, 2, &["e"])), Err(3));
}

#[test]
fn limits_of_a_sheet() {
    let agents = |n: usize| share(&compose::sheet(1, 2, &vec!["ed"; n]));
    assert!(agents(32).is_ok());
    assert_eq!(agents(33), Err(1));
    let chores = |m: usize| share(&compose::sheet(1, 2, &["e".repeat(m), "d".repeat(m)]));
    assert!(chores(4_000).is_ok());
    assert_eq!(chores(4_001), Err(2));
    let weight = |b: u16| share(&compose::sheet(1, b, &["ed", "de"]));
    assert_eq!(weight(1_000), Ok((vec![1, 2], vec![1_000, 1_000], 0, 0)));
    assert_eq!(weight(1_001), Err(3));
}

#[test]
fn limit_of_the_scratch() {
    for (length, expected) in [
        (64, ShareOut::Shared { moves: 2, cuts: 0 }),
        (63, ShareOut::Refused(8)),
    ] {
        let answer = allocate(&b(), &mut [0; 4], &mut [0; 4], &mut vec![1; length]);
        assert_eq!(answer, expected);
    }
    assert_eq!(MIN_SCRATCH, 64);
}

#[test]
fn printed_cases() {
    let c = "moves 3 cuts 1 owners 2 2 1 1 2 prices 3 3 3 3 1";
    let wide = [" 2".repeat(2_000), " 1".repeat(2_000)].concat();
    let print = [
        "n 32 moves 1 cuts 0 owners 3 1 2 prices 2 2 4",
        "n 33 refused 1",
        &format!(
            "m 4000 moves 2000 cuts 0 owners{wide} prices{}",
            " 2".repeat(4_000)
        ),
        "m 4001 refused 2",
        "b 1000 moves 3 cuts 1 owners 2 2 1 1 2 prices 1000 1000 1000 1000 1",
        "b 1001 refused 3",
        &format!("scratch 64 {c}"),
        "scratch 63 refused 8",
        "slack 8 holds",
        "slack 9 refused 13",
        "slack 9 lent 4 refused 8",
        "bit 6 refused 4",
        "length 8 refused 5",
        "owners 4 refused 6",
        "owner 3 refused 7",
        "price 0 refused 10",
        "sheet 0 refused 9",
        &format!("sheet 1 of 9 bytes {c}"),
        "sheet 2 of 0 bytes refused 5",
        "sheet 3 refused 9\n",
    ]
    .join("\n");
    assert_eq!(cases::print(), print);
}

#[test]
fn a_row_of_difficult_marks_is_read_as_easy() {
    // So the chore opens at a times b, not b times b.
    let sheet = compose::sheet(2, 5, &["d"]);
    assert_eq!(share(&sheet), Ok((vec![1], vec![10], 0, 0)));
    // So both chores open with agent 1, and one of them moves.
    let sheet = compose::sheet(2, 5, &["dd", "ee"]);
    assert_eq!(share(&sheet), Ok((vec![2, 1], vec![10, 10], 1, 0)));
}
