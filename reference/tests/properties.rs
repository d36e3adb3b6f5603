//! What every share-out must have: EF1, and so fairness at every slack but 0, no
//! waste, and accepted prices.

mod common;

use common::{every_rows, share, Random};
use reference::costs::Costs;
use reference::fairness::first_unfair_pair;
use reference::limits::MAX_SLACK;
use reference::sheet::Sheet;
use reference::{check_list, check_prices, compose, is_small_enough, plain_checks};
use reference::{ListVerdict, PriceVerdict};

/// At every slack but 0.
fn assert_holds(sheet: &[u8], owners: &[u8]) {
    for slack in 1..=MAX_SLACK {
        let verdict = plain_checks::check_list(sheet, owners, slack, &mut vec![0; owners.len()]);
        assert_eq!(verdict, ListVerdict::Holds, "{slack} {sheet:?}");
    }
}

/// Shares out and checks by prices and by search; hands back moves and cuts.
fn judge_small(sheet: &[u8]) -> (u64, u8) {
    assert!(is_small_enough(sheet));
    let (owners, prices, moves, cuts) = share(sheet).unwrap();
    let verdict = check_list(sheet, &owners, 1, &mut vec![0; owners.len()]);
    assert_eq!(verdict, ListVerdict::Holds, "{sheet:?}");
    assert_holds(sheet, &owners);
    let verdict = check_prices(sheet, &owners, &prices);
    assert_eq!(verdict, PriceVerdict::Accepted, "{sheet:?}");
    assert!(cuts < sheet[0], "{sheet:?}");
    (moves, cuts)
}

/// As many chores as leave at most `allocations` of them.
fn most_chores(agents: usize, allocations: usize) -> usize {
    let fits = |chores: &usize| agents.pow(*chores as u32) <= allocations;
    (0..=10).take_while(fits).last().unwrap()
}

#[test]
fn every_tiny_sheet() {
    for (agents, chores) in [
        (1, 4),
        (2, 0),
        (2, 1),
        (2, 5),
        (3, 1),
        (3, 2),
        (3, 4),
        (4, 3),
    ] {
        for rows in every_rows(agents, chores) {
            judge_small(&compose::sheet(1, 3, &rows));
            judge_small(&compose::sheet(2, 3, &rows));
        }
    }
}

#[test]
fn random_small_sheets() {
    let mut random = Random::new(1);
    let mut most_cuts = 0;
    let mut all_moves = 0;
    for _ in 0..9_000 {
        let agents = 1 + random.below(6);
        let chores = random.below(1 + most_chores(agents, 20_000));
        let (moves, cuts) = judge_small(&random.sheet(agents, chores));
        most_cuts = most_cuts.max(cuts);
        all_moves += moves;
    }
    assert!(most_cuts >= 2 && all_moves > 6_000);
}

#[test]
fn random_large_sheets() {
    let mut random = Random::new(2);
    let mut most_cuts = 0;
    for round in 0..600 {
        // Now and then the largest of all.
        let (agents, chores) = match round % 10 {
            0 => (32, 200),
            _ => random.size(),
        };
        let sheet = random.sheet(agents, chores);
        let (owners, prices, _, cuts) = share(&sheet).unwrap();
        let verdict = check_prices(&sheet, &owners, &prices);
        assert_eq!(verdict, PriceVerdict::Accepted, "{sheet:?}");
        let costs = Costs::as_marked(&Sheet::parse(&sheet).unwrap());
        let owner: Vec<usize> = owners.iter().map(|&i| usize::from(i) - 1).collect();
        assert_eq!(first_unfair_pair(&costs, &owner, 1), None, "{sheet:?}");
        assert_holds(&sheet, &owners);
        assert!(usize::from(cuts) < agents, "{sheet:?}");
        most_cuts = most_cuts.max(cuts);
    }
    assert!(most_cuts >= 4);
}
