//! Waste by a path, against all allocations where they are few, and on larger
//! sheets against domination and prices.

mod common;

use common::{all_lists, assert_not_wasteful, every_rows, owner_bytes, share, tiny_sizes, Random};
use reference::costs::Costs;
use reference::fairness::first_dominating;
use reference::sheet::Sheet;
use reference::{compose, dominates, waste};

/// An allocation that dominates, owners counted from 1 as in `owners`.
fn dominating(sheet: &[u8], owners: &[u8]) -> Option<Vec<u8>> {
    let owner: Vec<u8> = owners.iter().map(|number| number - 1).collect();
    let better = waste::dominating(&Sheet::parse(sheet).unwrap(), &owner)?;
    let better: Vec<u8> = better.iter().map(|agent| agent + 1).collect();
    assert!(
        dominates(sheet, &better, owners),
        "{sheet:?} {owners:?} {better:?}"
    );
    Some(better)
}

/// With weights 1 and 3.
fn of_rows(rows: &[&str], owners: &[u8]) -> Option<Vec<u8>> {
    dominating(&compose::sheet(1, 3, rows), owners)
}

#[test]
fn the_path_ends_with_the_owner_of_its_first_chore() {
    assert_eq!(of_rows(&["de", "ee"], &[1, 2]), Some(vec![2, 1]));
    // Agent 1 keeps its other difficult chores, before and after the first one.
    let rows = ["dddde", "dddde", "ddede"];
    assert_eq!(of_rows(&rows, &[1, 1, 1, 1, 3]), Some(vec![1, 1, 3, 1, 1]));
    // Over agents 2 and 3.
    assert_eq!(
        of_rows(&["dde", "eed", "dee"], &[1, 2, 3]),
        Some(vec![2, 3, 1])
    );
}

#[test]
fn the_first_taker_is_burdened() {
    assert_eq!(of_rows(&["dd", "ed"], &[1, 2]), Some(vec![2, 1]));
    // Each takes what the other finds difficult.
    assert_eq!(of_rows(&["de", "ed"], &[1, 2]), Some(vec![2, 1]));
    // Agent 2 keeps its easy chore and the second of its difficult ones.
    assert_eq!(
        of_rows(&["dedd", "eedd"], &[1, 2, 2, 2]),
        Some(vec![2, 2, 1, 2])
    );
}

#[test]
fn the_last_taker_hands_a_difficult_chore_to_the_first_owner() {
    // Chore 1 goes to agent 2, chore 2 on to agent 3, and chore 3 to agent 1.
    assert_eq!(
        of_rows(&["ddd", "eed", "ded"], &[1, 2, 3]),
        Some(vec![2, 3, 1])
    );
    // Agent 3 finds what it holds besides easy, and keeps it.
    assert_eq!(
        of_rows(&["dddd", "eedd", "dede"], &[1, 2, 3, 3]),
        Some(vec![2, 3, 1, 3])
    );
}

#[test]
fn whoever_holds_easy_chores_only_takes_no_more() {
    // Agent 2 holds nothing.
    assert_eq!(of_rows(&["d", "e"], &[1]), None);
    // What agent 2 could pass on, nobody else finds easy.
    assert_eq!(of_rows(&["dd", "ee"], &[1, 2]), None);
    // Or only agent 3 does, who holds nothing.
    assert_eq!(of_rows(&["dd", "ee", "de"], &[1, 2]), None);
    assert_eq!(of_rows(&["ddd", "eee", "dee"], &[1, 2, 3]), None);
    // Nobody finds any chore easy, or everybody all of them.
    assert_eq!(of_rows(&["ddd", "ddd"], &[1, 1, 2]), None);
    assert_eq!(of_rows(&["eee", "eee"], &[1, 1, 1]), None);
    assert_eq!(of_rows(&["", ""], &[]), None);
}

/// Agent i finds easy what it holds, chore i, and the chore before. Agent 1
/// finds chore 1 difficult, and the last one easy if `closed`.
fn chain(agents: usize, closed: bool) -> Vec<u8> {
    let is_easy = |i: usize, r: usize| match i {
        0 => closed && r == agents - 1,
        _ => r == i || r == i - 1,
    };
    let mark = |i: usize, r: usize| if is_easy(i, r) { 'e' } else { 'd' };
    let row = |i: usize| (0..agents).map(|r| mark(i, r)).collect();
    let rows: Vec<String> = (0..agents).map(row).collect();
    compose::sheet(999, 1_000, &rows)
}

#[test]
fn the_longest_paths() {
    for agents in 2..=32_u8 {
        let owners: Vec<u8> = (1..=agents).collect();
        let mut one_on: Vec<u8> = (2..=agents).collect();
        one_on.push(1);
        assert_eq!(
            dominating(&chain(agents.into(), true), &owners),
            Some(one_on)
        );
        assert_eq!(dominating(&chain(agents.into(), false), &owners), None);
    }
}

/// Against all allocations; whether the list is wasteful.
fn compare(sheet: &[u8], owner: &[usize]) -> bool {
    let costs = Costs::as_marked(&Sheet::parse(sheet).unwrap());
    let expected = first_dominating(&costs, owner).is_some();
    let found = dominating(sheet, &owner_bytes(owner)).is_some();
    assert_eq!(found, expected, "{sheet:?} {owner:?}");
    found
}

/// Every list of every sheet of this size: how many, and how many wasteful.
fn compare_all(weights: (u16, u16), agents: usize, chores: usize) -> (usize, usize) {
    let lists = all_lists(agents, chores);
    let (mut all, mut wasteful) = (0, 0);
    for rows in every_rows(agents, chores) {
        let sheet = compose::sheet(weights.0, weights.1, &rows);
        all += lists.len();
        wasteful += lists.iter().filter(|list| compare(&sheet, list)).count();
    }
    (all, wasteful)
}

#[test]
fn every_list_of_every_tiny_sheet() {
    for (agents, chores) in tiny_sizes() {
        compare_all((1, 3), agents, chores);
    }
    for (agents, chores) in [(4, 2), (5, 2), (4, 3)] {
        let (all, wasteful) = compare_all((1, 3), agents, chores);
        assert!(wasteful > all / 10 && wasteful < all, "{all} {wasteful}");
    }
}

#[test]
fn every_list_of_every_tinier_sheet_at_more_weights() {
    for weights in [(1, 2), (2, 3), (1, 1_000), (999, 1_000)] {
        for (agents, chores) in [(2, 2), (2, 3), (2, 4), (3, 2), (3, 3)] {
            compare_all(weights, agents, chores);
        }
    }
}

#[test]
fn random_lists_of_small_sheets() {
    let mut random = Random::new(52);
    let mut wasteful = 0;
    for _ in 0..6_000 {
        let (agents, most) = [(2, 10), (3, 6), (4, 5), (5, 4), (6, 4)][random.below(5)];
        let chores = random.below(most + 1);
        let sheet = random.sheet(agents, chores);
        let owner: Vec<usize> = (0..chores).map(|_| random.below(agents)).collect();
        wasteful += usize::from(compare(&sheet, &owner));
    }
    assert!(wasteful > 1_000, "{wasteful}");
}

/// Goes on from a list until nothing dominates; how many steps that takes.
fn relieved(sheet: &[u8], mut owners: Vec<u8>) -> usize {
    let mut steps = 0;
    while let Some(better) = dominating(sheet, &owners) {
        owners = better;
        steps += 1;
    }
    assert_not_wasteful(sheet, &owners);
    steps
}

#[test]
fn random_lists_of_sheets_of_any_size_until_nothing_dominates() {
    let mut random = Random::new(53);
    let mut steps = 0;
    for _ in 0..600 {
        let (agents, chores) = (1 + random.below(32), random.below(201));
        let sheet = random.sheet(agents, chores);
        steps += relieved(&sheet, random.owners(agents, chores));
    }
    assert!(steps > 10_000, "{steps}");
}

#[test]
fn share_outs_of_long_sheets_with_two_owners_exchanged() {
    let mut random = Random::new(54);
    let (mut wasteful, mut not) = (0, 0);
    for _ in 0..60 {
        let (agents, chores) = (2 + random.below(3), 4_000 - random.below(9));
        let sheet = random.sheet(agents, chores);
        let (mut owners, ..) = share(&sheet).unwrap();
        owners.swap(random.below(chores), random.below(chores));
        match relieved(&sheet, owners) {
            0 => not += 1,
            _ => wasteful += 1,
        }
    }
    assert!(wasteful > 10 && not > 10, "{wasteful} {not}");
}
