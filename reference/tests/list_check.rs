//! Verdicts of the list check at slack 1, and domination.

mod common;

use common::{c, d, e, Random};
use reference::{check_list, compose, dominates, is_small_enough, ListVerdict};

#[test]
fn some_chore_is_taken_off_not_the_cheapest() {
    // Agent 1 has a difficult and an easy chore, agent 2 an easy one.
    let sheet = compose::sheet(1, 3, &["dee", "dee"]);
    let mut shown = [9; 3];
    assert_eq!(
        check_list(&sheet, &[1, 1, 2], 1, &mut shown),
        ListVerdict::Holds
    );
    assert_eq!(
        check_list(&sheet, &[1, 1, 1], 1, &mut shown),
        ListVerdict::Unfair(1, 2)
    );
    assert_eq!(shown, [9; 3]);
}

#[test]
fn nobody_envies_without_chores() {
    let sheet = compose::sheet(1, 2, &["e", "e", "e"]);
    assert_eq!(check_list(&sheet, &[3], 1, &mut [0]), ListVerdict::Holds);
}

#[test]
fn the_first_unfair_pair_is_named() {
    let sheet = compose::sheet(1, 2, &["eeee", "eeee", "eeee", "eeee"]);
    let mut shown = [0; 4];
    let mut verdict = |owners: &[u8]| check_list(&sheet, owners, 1, &mut shown);
    assert_eq!(verdict(&[3, 3, 3, 3]), ListVerdict::Unfair(3, 1));
    assert_eq!(verdict(&[2, 2, 1, 1]), ListVerdict::Unfair(1, 3));
    assert_eq!(verdict(&[4, 4, 1, 2]), ListVerdict::Unfair(4, 3));
    assert_eq!(verdict(&[4, 1, 2, 3]), ListVerdict::Holds);
}

#[test]
fn unfair_comes_before_wasteful() {
    // Both chores are with the agent who finds them difficult.
    let sheet = compose::sheet(1, 2, &["dd", "ee"]);
    let mut shown = [9; 2];
    assert_eq!(
        check_list(&sheet, &[1, 1], 1, &mut shown),
        ListVerdict::Unfair(1, 2)
    );
    assert_eq!(shown, [9; 2]);
}

#[test]
fn waste_that_no_swap_of_two_mends() {
    // Only when each chore goes one agent on is agent 1 better off at no cost.
    let sheet = compose::sheet(1, 2, &["ded", "dee", "ede"]);
    let owners = [1, 2, 3];
    let mut shown = [9; 5];
    assert_eq!(
        check_list(&sheet, &owners, 1, &mut shown),
        ListVerdict::Wasteful
    );
    assert_eq!(shown, [3, 1, 2, 9, 9]);
    assert!(dominates(&sheet, &shown[..3], &owners));
    for (i, j) in [(0, 1), (0, 2), (1, 2)] {
        let mut swapped = owners;
        swapped.swap(i, j);
        assert!(!dominates(&sheet, &swapped, &owners));
    }
}

#[test]
fn domination() {
    assert!(dominates(&e(), &[1, 2], &[2, 1]));
    assert!(!dominates(&e(), &[2, 1], &[1, 2]));
    assert!(!dominates(&e(), &[1, 2], &[1, 2]));
    assert!(!dominates(&d(), &[1, 1, 2], &[1, 2, 2]));
    // Lists that are not owners of the sheet, and a refused sheet.
    assert!(!dominates(&e(), &[1, 3], &[2, 1]));
    assert!(!dominates(&e(), &[0, 2], &[2, 1]));
    assert!(!dominates(&e(), &[1, 2, 1], &[2, 1]));
    assert!(!dominates(&e(), &[1, 2], &[2]));
    assert!(!dominates(&e()[1..], &[1, 2], &[2, 1]));
}

#[test]
fn large_sheets_are_not_guessed_at() {
    let rows = vec!["e".repeat(4_000); 32];
    let large = compose::sheet(1, 2, &rows);
    let even: Vec<u8> = (0..4_000).map(|chore| (chore % 32 + 1) as u8).collect();
    let mut shown = [9; 4_000];
    assert!(!is_small_enough(&large));
    assert_eq!(
        check_list(&large, &even, 1, &mut shown),
        ListVerdict::Undecided
    );
    assert_eq!(
        check_list(&large, &[5; 4_000], 1, &mut shown),
        ListVerdict::Unfair(5, 1)
    );
    assert_eq!(shown, [9; 4_000]);
    let chores = |m: usize| is_small_enough(&compose::sheet(1, 2, &vec!["e".repeat(m); 2]));
    assert!(chores(20));
    assert!(!chores(21));
    // A single agent has a single allocation.
    let single = compose::sheet(1, 2, &["d".repeat(4_000)]);
    assert_eq!(
        check_list(&single, &[1; 4_000], 1, &mut shown),
        ListVerdict::Holds
    );
    assert!(!is_small_enough(&c()[1..]));
}

#[test]
fn every_verdict_on_random_lists() {
    let mut random = Random::new(11);
    let (mut holds, mut unfair, mut wasteful) = (0, 0, 0);
    for _ in 0..6_000 {
        let (agents, chores) = (1 + random.below(4), random.below(6));
        let sheet = random.sheet(agents, chores);
        let owners = random.owners(agents, chores);
        let mut shown = vec![99; chores + 2];
        match check_list(&sheet, &owners, 1, &mut shown) {
            ListVerdict::Holds => holds += 1,
            ListVerdict::Unfair(i, j) => {
                unfair += 1;
                assert!(i != j && i <= agents && j <= agents && owners.contains(&(i as u8)));
            }
            ListVerdict::Wasteful => {
                wasteful += 1;
                assert!(dominates(&sheet, &shown[..chores], &owners));
                shown[..chores].fill(99);
            }
            other => panic!("{other:?}"),
        }
        assert!(shown.iter().all(|&entry| entry == 99));
    }
    assert!(
        holds > 300 && unfair > 300 && wasteful > 300,
        "{holds} {unfair} {wasteful}"
    );
}
