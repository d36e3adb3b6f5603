//! The two checks against the second program: every answer, and every list that is shown.

use compare::comparisons::list_checks::{self, SLACKS};
use compare::comparisons::price_checks;
use compare::lists::{damaged_given, Given};
use compare::random::Random;
use compare::{shapes, sizes};
use reference::limits::{MAX_CHORES, MAX_SLACK};
use reference::{is_small_enough, ListVerdict, PriceVerdict};

// Lists that keep the rules, at slacks of 0 to 9.
const MANY: usize = 100_000;
const SMALL: usize = 20_000;
const ANY: usize = 2_000;
const LARGE: usize = 3_000;
const LONG: usize = 400;
const LARGEST: usize = 10;
const AT_EVERY_SLACK: usize = 10_000;

const DAMAGED: usize = 20_000;

const SLACK_REFUSED: usize = SLACKS - 1;

/// By slack, how many lists hold, are unfair, are wasteful and are refused.
#[derive(Debug, Default)]
struct Kinds([[usize; 4]; SLACKS]);

impl Kinds {
    fn add(&mut self, slack: u8, verdict: ListVerdict) {
        let kind = match verdict {
            ListVerdict::Holds => 0,
            ListVerdict::Unfair(..) => 1,
            ListVerdict::Wasteful => 2,
            ListVerdict::Refused(_) => 3,
            ListVerdict::Undecided => panic!("the library decides every list"),
        };
        self.0[usize::from(slack)][kind] += 1;
    }

    /// Each verdict at each slack, so often at least. Few lists are envy-free, and of
    /// these few are wasteful.
    fn assert_all(&self, least: usize, envy_free: usize) {
        println!("{self:?}");
        for (slack, kinds) in self.0.iter().enumerate() {
            let least = match slack {
                0 => [envy_free, least, envy_free, 0],
                SLACK_REFUSED => [0, 0, 0, least],
                _ => [least, least, least, 0],
            };
            let mut pairs = kinds.iter().zip(least);
            assert!(pairs.all(|(&count, least)| count >= least), "{self:?}");
        }
    }
}

#[test]
fn small_lists_get_the_same_verdict() {
    let mut random = Random::new(1);
    let mut kinds = Kinds::default();
    for _ in 0..SMALL {
        let (given, verdict) = list_checks::small(&mut random);
        kinds.add(given.slack, verdict);
    }
    kinds.assert_all(SMALL / 2_000, SMALL / 4_000);
}

/// Compares lists near the share-out's, on sheets of these numbers of chores.
/// Hands back how many are of each kind on sheets with too many allocations to
/// try them all.
fn kinds_of_large(
    seed: u64,
    count: usize,
    make: fn(&mut Random) -> Vec<u8>,
    numbers: impl IntoIterator<Item = usize>,
) -> Kinds {
    let mut random = Random::new(seed);
    let (mut kinds, mut sizes) = (Kinds::default(), sizes::Seen::default());
    for _ in 0..count {
        let (given, verdict) = list_checks::near_share_out(&mut random, make);
        if !is_small_enough(&given.sheet) {
            kinds.add(given.slack, verdict);
        }
        sizes.add(&given.sheet);
    }
    sizes.assert_all(numbers, 1);
    kinds
}

#[test]
fn lists_of_any_size_get_the_same_verdict() {
    let kinds = kinds_of_large(2, ANY, shapes::any_sheet, 0..=17);
    kinds.assert_all(ANY / 400, 1);
}

#[test]
fn large_lists_get_the_same_verdict() {
    let numbers = sizes::around_bytes(200);
    let kinds = kinds_of_large(6, LARGE, shapes::large_sheet, numbers);
    kinds.assert_all(LARGE / 200, 1);
}

#[test]
fn long_lists_get_the_same_verdict() {
    let kinds = kinds_of_large(7, LONG, shapes::long_sheet, sizes::LONGEST);
    kinds.assert_all(1, 1);
}

#[test]
fn largest_lists_get_the_same_verdict() {
    let Kinds(all) = kinds_of_large(8, LARGEST, shapes::largest_sheet, [MAX_CHORES]);
    assert_eq!(all.iter().flatten().sum::<usize>(), LARGEST);
}

#[test]
fn many_lists_get_the_same_verdict() {
    let mut random = Random::new(10);
    let mut kinds = Kinds::default();
    for _ in 0..MANY {
        let (given, verdict) = list_checks::near_by_pair(&mut random, shapes::small_sheet);
        kinds.add(given.slack, verdict);
    }
    kinds.assert_all(MANY / 200, MANY / 2_000);
}

/// By slack, how many lists first hold there or are first wasteful there, and how
/// many name another pair than at the slack before.
#[derive(Debug, Default)]
struct Changes([[usize; 3]; SLACKS]);

impl Changes {
    fn add(&mut self, verdicts: &[ListVerdict; SLACKS]) {
        for (slack, pair) in verdicts.windows(2).enumerate() {
            let changes = &mut self.0[slack + 1];
            match (pair[0], pair[1]) {
                (ListVerdict::Unfair(..), ListVerdict::Holds) => changes[0] += 1,
                (ListVerdict::Unfair(..), ListVerdict::Wasteful) => changes[1] += 1,
                (ListVerdict::Unfair(i, j), ListVerdict::Unfair(k, l)) => {
                    changes[2] += usize::from((i, j) != (k, l));
                }
                _ => {}
            }
        }
    }
}

#[test]
fn verdicts_at_every_slack() {
    let mut random = Random::new(11);
    let mut changes = Changes::default();
    for _ in 0..AT_EVERY_SLACK {
        let (_, verdicts) = list_checks::at_every_slack(&mut random, shapes::any_sheet);
        changes.add(&verdicts);
    }
    println!("{changes:?}");
    for changes in &changes.0[1..SLACK_REFUSED] {
        assert!(changes.iter().all(|&count| count > 10), "{changes:?}");
    }
}

/// By number, how often the list check refuses: in all, and at a slack above the
/// limit, which comes after all else.
fn refusals(all: &[(Given, ListVerdict)]) -> [[usize; 14]; 2] {
    let mut numbers = [[0; 14]; 2];
    for (given, verdict) in all {
        if let ListVerdict::Refused(number) = verdict {
            numbers[0][usize::from(*number)] += 1;
            numbers[1][usize::from(*number)] += usize::from(given.slack > MAX_SLACK);
        }
    }
    numbers
}

#[test]
fn damaged_sheets_and_lists_get_the_same_number() {
    let mut random = Random::new(3);
    let compared = |_| {
        let given = damaged_given(&mut random);
        let verdict = list_checks::compared(&mut random, &given);
        price_checks::compared(&given);
        (given, verdict)
    };
    let all: Vec<(Given, ListVerdict)> = (0..DAMAGED).map(compared).collect();
    let [any, at_slack] = refusals(&all);
    for number in [1, 2, 3, 4, 5, 6, 7, 8, 13] {
        assert!(at_slack[number] > DAMAGED / 200, "{at_slack:?}");
    }
    assert_eq!(any[13], at_slack[13]);
}

/// How many lists and prices, near the share-out's, are accepted, how many are
/// not, and the highest chore that is off its price.
fn price_verdicts(seed: u64, count: usize, make: fn(&mut Random) -> Vec<u8>) -> [usize; 3] {
    let mut random = Random::new(seed);
    let mut seen = [0; 3];
    for _ in 0..count {
        let (_, verdict) = price_checks::near_share_out(&mut random, make);
        match verdict {
            PriceVerdict::Accepted => seen[0] += 1,
            PriceVerdict::OffPrice(chore) => {
                seen[1] += 1;
                seen[2] = chore.max(seen[2]);
            }
            _ => seen[1] += 1,
        }
    }
    println!("{seen:?}");
    seen
}

#[test]
fn price_lists_get_the_same_verdict() {
    let [accepted, not, _] = price_verdicts(4, SMALL, shapes::any_sheet);
    assert!(accepted > SMALL / 20 && not > SMALL / 20);
}

/// Chores that take both high bytes of a verdict.
#[test]
fn long_price_lists_get_the_same_verdict() {
    let [accepted, not, chore] = price_verdicts(9, LONG, shapes::long_sheet);
    assert!(accepted > LONG / 20 && not > LONG / 20);
    assert!(chore > MAX_CHORES / 2, "{chore}");
}

/// Sums at their greatest: every price at its limit, and a first agent who holds
/// from few of them to all.
#[test]
fn greatest_prices_get_the_same_verdict() {
    let mut random = Random::new(5);
    for percent in 0..=100 {
        price_checks::greatest(&mut random, percent);
    }
}
