//! Verdicts of the price check.

mod common;

use common::{c, d, e, f, Random};
use reference::limits::MAX_SLACK;
use reference::{check_list, check_prices, compose, ListVerdict, PriceVerdict};

#[test]
fn bounds_of_a_price() {
    let sheet = compose::sheet(1, 2, &["e", "e"]);
    let verdict = |price: u32| check_prices(&sheet, &[2], &[price]);
    assert_eq!(verdict(0), PriceVerdict::Refused(10));
    assert_eq!(verdict(1), PriceVerdict::Accepted);
    assert_eq!(verdict(1_000_000), PriceVerdict::Accepted);
    assert_eq!(verdict(1_000_001), PriceVerdict::Refused(10));
    assert_eq!(verdict(u32::MAX), PriceVerdict::Refused(10));
}

#[test]
fn counts_of_prices() {
    for prices in [&[][..], &[2], &[2, 2, 2], &[2, 2, 0]] {
        assert_eq!(
            check_prices(&e(), &[1, 2], prices),
            PriceVerdict::Refused(10)
        );
    }
    assert_eq!(check_prices(&e(), &[1, 2], &[2, 2]), PriceVerdict::Accepted);
}

#[test]
fn the_first_chore_off_price_is_named() {
    // Agent 1's least ratio is 1/2, and agent 2's is 1/4.
    let verdict = |owners: &[u8], prices: &[u32]| check_prices(&f(), owners, prices);
    assert_eq!(verdict(&[2, 1], &[4, 2]), PriceVerdict::Accepted);
    assert_eq!(verdict(&[2, 1], &[4, 3]), PriceVerdict::OffPrice(1));
    assert_eq!(verdict(&[2, 1], &[5, 2]), PriceVerdict::OffPrice(2));
    assert_eq!(
        check_prices(&e(), &[2, 1], &[1, 1]),
        PriceVerdict::OffPrice(1)
    );
    assert_eq!(
        check_prices(&e(), &[1, 1], &[1, 1]),
        PriceVerdict::OffPrice(2)
    );
}

#[test]
fn off_price_comes_before_envy() {
    let all_with_one = [1, 1, 1, 1, 1];
    let off = check_prices(&c(), &all_with_one, &[3, 3, 3, 3, 1]);
    assert_eq!(off, PriceVerdict::OffPrice(5));
    let envy = check_prices(&c(), &all_with_one, &[3, 3, 3, 3, 3]);
    assert_eq!(envy, PriceVerdict::PriceEnvy(1, 2));
}

#[test]
fn the_first_envious_pair_is_named() {
    let sheet = compose::sheet(1, 2, &["eeee", "eeee", "eeee", "eeee"]);
    let verdict = |owners: &[u8]| check_prices(&sheet, owners, &[2, 2, 2, 2]);
    assert_eq!(verdict(&[3, 3, 3, 3]), PriceVerdict::PriceEnvy(3, 1));
    assert_eq!(verdict(&[2, 2, 1, 1]), PriceVerdict::PriceEnvy(1, 3));
    assert_eq!(verdict(&[4, 4, 1, 2]), PriceVerdict::PriceEnvy(4, 3));
    assert_eq!(verdict(&[4, 1, 2, 3]), PriceVerdict::Accepted);
    // Equal is not above.
    assert_eq!(
        check_prices(&d(), &[1, 1, 2], &[2, 2, 2]),
        PriceVerdict::Accepted
    );
}

#[test]
fn the_dearest_chore_is_taken_off() {
    let sheet = compose::sheet(1, 3, &["dee", "dee"]);
    assert_eq!(
        check_prices(&sheet, &[1, 1, 2], &[3, 1, 1]),
        PriceVerdict::Accepted
    );
}

#[test]
fn the_dearest_prices_of_the_largest_sheet() {
    let sheet = compose::sheet(999, 1_000, &vec!["e".repeat(4_000); 32]);
    let verdict = check_prices(&sheet, &[32; 4_000], &[1_000_000; 4_000]);
    assert_eq!(verdict, PriceVerdict::PriceEnvy(32, 1));
}

#[test]
fn what_is_accepted_also_holds() {
    let mut random = Random::new(12);
    let (mut off, mut envy, mut accepted) = (0, 0, 0);
    for _ in 0..30_000 {
        let (agents, chores) = (1 + random.below(3), random.below(5));
        let (easy, difficult) = [(1, 2), (1, 3), (2, 3)][random.below(3)];
        let sheet = compose::sheet(easy, difficult, &random.rows(agents, chores));
        let owners = random.owners(agents, chores);
        let few = [easy, difficult, easy * difficult].map(u32::from);
        let prices: Vec<u32> = (0..chores).map(|_| few[random.below(3)]).collect();
        match check_prices(&sheet, &owners, &prices) {
            PriceVerdict::OffPrice(_) => off += 1,
            PriceVerdict::PriceEnvy(..) => envy += 1,
            PriceVerdict::Accepted => {
                accepted += 1;
                for slack in 1..=MAX_SLACK {
                    let verdict = check_list(&sheet, &owners, slack, &mut vec![0; chores]);
                    assert_eq!(verdict, ListVerdict::Holds);
                }
            }
            other => panic!("{other:?}"),
        }
    }
    assert!(off > 1_000 && envy > 1_000 && accepted > 1_000);
}
