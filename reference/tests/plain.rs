//! The share-out over flat lists against the one near the text.

mod common;

use common::Random;
use reference::limits::{MAX_AGENTS, MAX_CHORES, MIN_SCRATCH};
use reference::share_out::Way;
use reference::sheet::Sheet;
use reference::{plain, share_out};

/// Hands back the moves and the cuts.
fn compare(sheet: &[u8]) -> (u64, u8) {
    let parsed = Sheet::parse(sheet).unwrap();
    let [worked, near_the_text] =
        [plain::work, share_out::work].map(|work: Way| work(&parsed, &mut [7; MIN_SCRATCH]));
    assert_eq!(worked, near_the_text, "{sheet:?}");
    (worked.moves, worked.cuts)
}

#[test]
fn small_sheets() {
    let mut random = Random::new(21);
    for _ in 0..20_000 {
        let (agents, chores) = (1 + random.below(7), random.below(20));
        compare(&random.sheet(agents, chores));
    }
}

#[test]
fn sheets_of_any_size() {
    let mut random = Random::new(22);
    let (mut moves, mut cuts) = (0, 0);
    for _ in 0..1_500 {
        let (agents, chores) = random.size();
        let (of_moves, of_cuts) = compare(&random.sheet(agents, chores));
        moves = of_moves.max(moves);
        cuts = of_cuts.max(cuts);
    }
    assert!(moves > 1_000 && cuts > 5, "{moves} {cuts}");
}

#[test]
fn the_largest_sheets() {
    let mut random = Random::new(23);
    let mut most = 0;
    for _ in 0..8 {
        let (moves, _) = compare(&random.sheet(MAX_AGENTS, MAX_CHORES));
        most = moves.max(most);
    }
    assert!(most > 2_000, "{most}");
}
