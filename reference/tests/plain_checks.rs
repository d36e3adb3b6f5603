//! The checks over flat lists against those near the text.

mod common;

use common::{all_lists, as_bytes, c, d, e, every_rows, owner_bytes, share, tiny_sizes, Random};
use reference::limits::{MAX_AGENTS, MAX_CHORES, MAX_PRICE, MAX_SLACK};
use reference::{check_list, compose, dominates, plain_checks, price_bytes};
use reference::{ListVerdict, PriceVerdict};

type ListCheck = fn(&[u8], &[u8], u8, &mut [u8]) -> ListVerdict;

/// The verdict, with every lent entry looked at.
fn judged(check: ListCheck, sheet: &[u8], owners: &[u8], slack: u8, lent: usize) -> ListVerdict {
    let mut shown = vec![99; lent];
    let verdict = check(sheet, owners, slack, &mut shown);
    if verdict == ListVerdict::Wasteful {
        let written = &mut shown[..owners.len()];
        assert!(dominates(sheet, written, owners), "{sheet:?} {owners:?}");
        written.fill(99);
    }
    assert_eq!(shown, vec![99; lent], "{sheet:?} {owners:?}");
    verdict
}

/// Holds, unfair, wasteful, refused.
type Seen = [usize; 4];

/// Only waste may be left open by the check near the text.
fn compare_list(sheet: &[u8], owners: &[u8], slack: u8, lent: usize, seen: &mut Seen) {
    let fast = judged(plain_checks::check_list, sheet, owners, slack, lent);
    let kind = match fast {
        ListVerdict::Holds => 0,
        ListVerdict::Unfair(..) => 1,
        ListVerdict::Wasteful => 2,
        ListVerdict::Refused(_) => 3,
        ListVerdict::Undecided => panic!("{sheet:?} {owners:?}"),
    };
    seen[kind] += 1;
    match judged(check_list, sheet, owners, slack, lent) {
        ListVerdict::Undecided => assert!(kind == 0 || kind == 2, "{sheet:?} {owners:?}"),
        slow => assert_eq!(fast, slow, "{slack} {sheet:?} {owners:?}"),
    }
}

/// Accepted, off price, price envy, refused.
fn compare_prices(sheet: &[u8], owners: &[u8], prices: &[u8], seen: &mut Seen) {
    let fast = plain_checks::check_prices(sheet, owners, prices);
    let slow = price_bytes::check(sheet, owners, prices);
    assert_eq!(fast, slow, "{sheet:?} {owners:?} {prices:?}");
    let kind = match fast {
        PriceVerdict::Accepted => 0,
        PriceVerdict::OffPrice(_) => 1,
        PriceVerdict::PriceEnvy(..) => 2,
        PriceVerdict::Refused(_) => 3,
    };
    seen[kind] += 1;
}

#[test]
fn lists_and_prices_to_try() {
    let verdict =
        |sheet: &[u8], owners: &[u8]| judged(plain_checks::check_list, sheet, owners, 1, 9);
    assert_eq!(verdict(&d(), &[1, 1, 1]), ListVerdict::Unfair(1, 2));
    assert_eq!(verdict(&d(), &[1, 1, 2]), ListVerdict::Holds);
    assert_eq!(verdict(&e(), &[2, 1]), ListVerdict::Wasteful);
    let verdict =
        |prices: [u32; 5]| plain_checks::check_prices(&c(), &[2, 2, 1, 1, 2], &as_bytes(&prices));
    assert_eq!(verdict([3, 3, 3, 3, 1]), PriceVerdict::Accepted);
    assert_eq!(verdict([3, 3, 3, 3, 3]), PriceVerdict::OffPrice(1));
}

#[test]
fn every_list_of_every_tiny_sheet() {
    let mut seen = [0; 4];
    for (agents, chores) in tiny_sizes() {
        let lists = all_lists(agents, chores);
        for rows in every_rows(agents, chores) {
            for (easy, difficult, slack) in [(1, 3, 0), (1, 3, 1), (1, 3, 2), (2, 3, 1)] {
                let sheet = compose::sheet(easy, difficult, &rows);
                for list in &lists {
                    compare_list(&sheet, &owner_bytes(list), slack, chores, &mut seen);
                }
            }
        }
    }
    assert!(seen[..3].iter().all(|&count| count > 50_000), "{seen:?}");
    assert_eq!(seen[3], 0);
}

#[test]
fn random_lists_of_small_sheets() {
    let mut random = Random::new(61);
    let mut seen = [[0; 4]; 9];
    for _ in 0..10_000 {
        let (agents, chores) = (1 + random.below(4), random.below(7));
        let sheet = random.sheet(agents, chores);
        let slack = random.below(9);
        let mut owners = match random.below(2) {
            0 => random.owners(agents, chores),
            _ => random.dealt(agents, chores),
        };
        if random.below(3) == 0 {
            pile(&mut random, &mut owners, 2 * slack);
        }
        let lent = chores + random.below(3);
        compare_list(&sheet, &owners, slack as u8, lent, &mut seen[slack]);
    }
    for (slack, seen) in seen.iter().enumerate() {
        assert!(seen[0] > 100 && seen[2] > 3, "{slack} {seen:?}");
        // There are up to six chores.
        assert_eq!(seen[1] > 3, slack < 6, "{slack} {seen:?}");
        assert_eq!(seen[3], 0);
    }
}

/// The share-out's list and prices, with up to three owners changed or exchanged.
fn near_fair(random: &mut Random, sheet: &[u8]) -> (Vec<u8>, Vec<u32>) {
    let (mut owners, prices, ..) = share(sheet).unwrap();
    let (agents, chores) = (usize::from(sheet[0]), owners.len());
    for _ in 0..random.below(4).min(chores) {
        match random.below(2) {
            0 => owners[random.below(chores)] = 1 + random.below(agents) as u8,
            _ => owners.swap(random.below(chores), random.below(chores)),
        }
    }
    (owners, prices)
}

#[test]
fn lists_of_sheets_of_any_size() {
    let mut random = Random::new(62);
    let mut seen = [[0; 4]; 9];
    for _ in 0..1_500 {
        let (agents, chores) = match random.below(30) {
            0 => (2 + random.below(5), 4_000 - random.below(9)),
            _ => (5 + random.below(28), 10 + random.below(191)),
        };
        let sheet = random.sheet(agents, chores);
        let (mut owners, _) = near_fair(&mut random, &sheet);
        let slack = random.below(9);
        if random.below(2) == 0 {
            pile(&mut random, &mut owners, 2 + 2 * slack);
        }
        let lent = chores + random.below(3);
        compare_list(&sheet, &owners, slack as u8, lent, &mut seen[slack]);
    }
    for (slack, seen) in seen.iter().enumerate() {
        // Few lists are envy-free.
        let least = if slack == 0 { 1 } else { 10 };
        assert!(seen[..3].iter().all(|&count| count >= least), "{seen:?}");
        assert_eq!(seen[3], 0);
    }
}

/// Hands up to so many chores to one agent.
fn pile(random: &mut Random, owners: &mut [u8], most: usize) {
    if owners.is_empty() {
        return;
    }
    let agent = owners[random.below(owners.len())];
    for _ in 0..random.below(most + 1) {
        owners[random.below(owners.len())] = agent;
    }
}

/// Now and then a byte changed, left out or put in.
fn damaged(random: &mut Random, bytes: &[u8]) -> Vec<u8> {
    let mut bytes = bytes.to_vec();
    for _ in 0..random.below(3) {
        let at = random.below(bytes.len() + 1);
        let byte = [0, 1, 2, 4, 16, 33, 64, 128, 255][random.below(9)];
        match random.below(4) {
            0 => bytes.insert(at, byte),
            1 if at < bytes.len() => drop(bytes.remove(at)),
            _ if at < bytes.len() => bytes[at] = byte,
            _ => {}
        }
    }
    bytes
}

#[test]
fn damaged_sheets_lists_and_prices() {
    let mut random = Random::new(63);
    let mut seen = [[0; 4]; 2];
    for _ in 0..40_000 {
        let (agents, chores) = (1 + random.below(3), random.below(6));
        let sheet = random.sheet(agents, chores);
        let (owners, prices) = near_fair(&mut random, &sheet);
        let sheet = damaged(&mut random, &sheet);
        let owners = damaged(&mut random, &owners);
        let prices = damaged(&mut random, &as_bytes(&prices));
        let lent = random.below(chores + 4);
        let slack = [0, 1, 2, 7, MAX_SLACK, MAX_SLACK + 1, 255][random.below(7)];
        compare_list(&sheet, &owners, slack, lent, &mut seen[0]);
        compare_prices(&sheet, &owners, &prices, &mut seen[1]);
    }
    for seen in seen {
        assert!(seen[3] > 10_000 && seen[0] > 300, "{seen:?}");
    }
}

#[test]
fn every_few_prices_of_every_tiny_sheet() {
    let mut seen = [0; 4];
    let few = |places: &Vec<usize>| places.iter().map(|&at| [1, 2, 3, 4, 6, 9][at]).collect();
    let all_prices: Vec<Vec<u32>> = all_lists(6, 3).iter().map(few).collect();
    let lists = all_lists(2, 3);
    for rows in every_rows(2, 3) {
        for (easy, difficult) in [(1, 3), (2, 3)] {
            let sheet = compose::sheet(easy, difficult, &rows);
            for list in &lists {
                let owners = owner_bytes(list);
                for prices in &all_prices {
                    compare_prices(&sheet, &owners, &as_bytes(prices), &mut seen);
                }
            }
        }
    }
    assert!(seen[..3].iter().all(|&count| count > 1_000), "{seen:?}");
    assert_eq!(seen[3], 0);
}

#[test]
fn prices_of_sheets_of_any_size() {
    let mut random = Random::new(64);
    let mut seen = [0; 4];
    for _ in 0..3_000 {
        let (agents, chores) = random.size();
        let sheet = random.sheet(agents, chores);
        let (owners, mut prices) = near_fair(&mut random, &sheet);
        if chores > 0 && random.below(3) == 0 {
            prices[random.below(chores)] = 1 + random.below(MAX_PRICE as usize) as u32;
        }
        compare_prices(&sheet, &owners, &as_bytes(&prices), &mut seen);
    }
    assert!(seen[..3].iter().all(|&count| count > 200), "{seen:?}");
    assert_eq!(seen[3], 0);
}

/// Sums and products at their greatest.
#[test]
fn the_dearest_prices_of_the_largest_sheets() {
    let mut random = Random::new(65);
    let mut seen = [0; 4];
    let prices = as_bytes(&[MAX_PRICE; MAX_CHORES]);
    for holders in 1..=MAX_AGENTS {
        let mark = ["e", "d"][random.below(2)];
        let sheet = compose::sheet(999, 1_000, &vec![mark.repeat(MAX_CHORES); MAX_AGENTS]);
        let owners = random.owners(holders, MAX_CHORES);
        compare_prices(&sheet, &owners, &prices, &mut seen);
    }
    assert_eq!(seen, [0, 0, MAX_AGENTS, 0]);
}

#[test]
fn bounds_and_bytes_of_prices() {
    let verdict = |prices: &[u8]| plain_checks::check_prices(&d(), &[1, 1, 2], prices);
    for price in [1, 255, 256, 65_536, MAX_PRICE] {
        assert_eq!(verdict(&as_bytes(&[price; 3])), PriceVerdict::Accepted);
    }
    for price in [0, MAX_PRICE + 1, 1 << 24, u32::MAX] {
        for place in 0..3 {
            let mut prices = [2; 3];
            prices[place] = price;
            let verdict = verdict(&as_bytes(&prices));
            assert_eq!(verdict, PriceVerdict::Refused(10), "{prices:?}");
        }
    }
    let bytes = as_bytes(&[2; 5]);
    for length in (0..=bytes.len()).filter(|&length| length != 12) {
        assert_eq!(verdict(&bytes[..length]), PriceVerdict::Refused(10));
    }
}
