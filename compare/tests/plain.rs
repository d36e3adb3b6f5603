//! The plain C program against the proved library: every answer, and every byte that was lent. Only the dominating lists that they show
//! may differ. The join and everyone's measure are held to the second program's, as the proved ones are elsewhere.

use compare::comparisons::joins::joined;
use compare::comparisons::measures;
use compare::damage::damaged;
use compare::lent::{assert_all_hold, enough, short, Lengths, Lent};
use compare::lists::{damaged_given, near_accepted, near_slack, slack, Given};
use compare::random::{self, Random};
use compare::shapes::{self, Shape};
use compare::strands::{any_pair, lent_length};
use compare::{header, sizes, Checks, Library, PLAIN, PROVED};
use reference::limits::{MAX_CHORES, MAX_SLACK};
use reference::sheet::Sheet;
use reference::{ListVerdict, PriceVerdict};

const SHEETS: usize = 10_000;
const WIDE: usize = 2_000;
const LONG: usize = 100;
const LARGEST: usize = 4;
const DAMAGED: usize = 20_000;
const LISTS: usize = 10_000;

/// The number, moves and cuts of one sheet, which both libraries told.
fn shared_out(random: &mut Random, sheet: &[u8], lengths: Lengths) -> (u8, u64, u8) {
    let lent = lengths.map(|length| Lent::bytes(random, length));
    let told = (random.word(), random.byte());
    let share_out = |library: &Library| {
        let mut lent = lent.clone();
        let (mut moves, mut cuts) = told;
        let [owners, prices, scratch] = lent.each_mut().map(Lent::part);
        let number = library.allocate(sheet, owners, prices, scratch, &mut moves, &mut cuts);
        ((number, moves, cuts), lent)
    };
    let (expected, proved) = share_out(&PROVED);
    let (got, plain) = share_out(&PLAIN);
    assert_eq!(
        got, expected,
        "number, moves, cuts of {sheet:?}, lent {lengths:?}"
    );
    assert_all_hold(&plain, proved.map(|lent| lent.now().to_vec()), sheet);
    got
}

/// The most moves and cuts of any sheet. Sheets of each of these numbers of
/// chores are among them.
fn shared_out_all(
    seed: u64,
    count: usize,
    sheet: fn(&mut Random) -> Vec<u8>,
    numbers: impl IntoIterator<Item = usize>,
) -> (u64, u8) {
    let mut random = Random::new(seed);
    let mut most = (0, 0);
    let mut sizes = sizes::Seen::default();
    for _ in 0..count {
        let sheet = sheet(&mut random);
        let lengths = enough(&mut random, header::chores(&sheet));
        let (number, moves, cuts) = shared_out(&mut random, &sheet, lengths);
        assert_eq!(number, 0, "{sheet:?}");
        most = (moves.max(most.0), cuts.max(most.1));
        sizes.add(&sheet);
    }
    sizes.assert_all(numbers, 1);
    most
}

#[test]
fn sheets_of_any_size() {
    let (moves, cuts) = shared_out_all(41, SHEETS, shapes::any_sheet, 0..=65);
    assert!(moves > 100 && cuts > 4, "{moves} {cuts}");
}

#[test]
fn long_sheets() {
    let (moves, _) = shared_out_all(49, LONG, shapes::long_sheet, sizes::LONGEST);
    assert!(moves > 2_000, "{moves}");
}

#[test]
fn largest_sheets() {
    let largest = shapes::largest_sheet;
    let (moves, _) = shared_out_all(50, LARGEST, largest, [MAX_CHORES]);
    assert!(moves > 1_000, "{moves}");
}

#[test]
fn sheets_with_many_cuts() {
    let ladder = |random: &mut Random| {
        let agents = 1 + random.below(32);
        shapes::sheet(random, Shape::Ladder, agents, 200)
    };
    let (_, cuts) = shared_out_all(42, WIDE, ladder, [200]);
    assert!(cuts > 10, "{cuts}");
}

#[test]
fn sheets_for_few_agents() {
    let few = |random: &mut Random| {
        let agents = 1 + random.below(3);
        let shape = shapes::any_shape(random);
        shapes::sheet(random, shape, agents, 200)
    };
    let (moves, _) = shared_out_all(43, WIDE, few, [200]);
    assert!(moves > 100, "{moves}");
}

#[test]
fn damaged_sheets_and_short_lists() {
    let mut random = Random::new(44);
    let mut numbers = [0; 9];
    for _ in 0..DAMAGED {
        let mut sheet = shapes::small_sheet(&mut random);
        if random.chance(70) {
            sheet = damaged(&mut random, sheet);
        }
        let chores = Sheet::parse(&sheet).map_or(0, |sheet| sheet.chores);
        let lengths = short(&mut random, chores);
        let (number, ..) = shared_out(&mut random, &sheet, lengths);
        numbers[usize::from(number)] += 1;
    }
    for number in [0, 1, 2, 3, 4, 5, 8] {
        assert!(numbers[number] > 100, "{numbers:?}");
    }
}

/// Small and large sheets, and now and then a long one.
fn sheet_to_check(random: &mut Random) -> Vec<u8> {
    match random.below(100) {
        0 => shapes::long_sheet(random),
        _ => shapes::any_sheet(random),
    }
}

/// A list that keeps the rules, at any slack that there may be.
fn list_to_check(random: &mut Random, sheet: Vec<u8>) -> Given {
    let (agents, chores) = (header::agents(&sheet), header::chores(&sheet));
    let slack = slack(random).min(MAX_SLACK);
    let owners = if random.chance(80) {
        near_slack(&sheet, slack, random)
    } else {
        random::owners(random, agents, chores)
    };
    Given {
        sheet,
        owners,
        slack,
        lent: chores + random.below(3),
        prices: Vec::new(),
    }
}

#[test]
fn list_checks() {
    let mut random = Random::new(45);
    let mut seen = [[0; 3]; MAX_SLACK as usize + 1];
    let mut sizes = sizes::Seen::default();
    for _ in 0..LISTS {
        let sheet = sheet_to_check(&mut random);
        let given = list_to_check(&mut random, sheet);
        let [proved, plain] = [&PROVED, &PLAIN].map(|library| given.judged(library, &mut random));
        assert_eq!(plain, proved, "{given:?}");
        let kind = match plain {
            ListVerdict::Holds => 0,
            ListVerdict::Unfair(..) => 1,
            ListVerdict::Wasteful => 2,
            other => panic!("{other:?}"),
        };
        seen[usize::from(given.slack)][kind] += 1;
        sizes.add(&given.sheet);
    }
    for (slack, seen) in seen.iter().enumerate() {
        // Few lists are envy-free, and of these few are wasteful.
        let least = if slack == 0 { 1 } else { LISTS / 500 };
        assert!(seen.iter().all(|&count| count >= least), "{seen:?}");
    }
    sizes.assert_all(sizes::around_bytes(65).chain(sizes::LONGEST), 1);
}

#[test]
fn price_checks() {
    let mut random = Random::new(46);
    let mut seen = [0; 3];
    let mut sizes = sizes::Seen::default();
    for _ in 0..LISTS {
        let sheet = sheet_to_check(&mut random);
        let (owners, prices) = near_accepted(&sheet, &mut random);
        let [proved, plain] =
            [&PROVED, &PLAIN].map(|library| library.check_prices(&sheet, &owners, &prices));
        assert_eq!(plain, proved, "{sheet:?} {owners:?} {prices:?}");
        match plain {
            PriceVerdict::Accepted => seen[0] += 1,
            PriceVerdict::OffPrice(_) => seen[1] += 1,
            PriceVerdict::PriceEnvy(..) => seen[2] += 1,
            PriceVerdict::Refused(number) => panic!("refused {number}"),
        }
        sizes.add(&sheet);
    }
    assert!(seen.iter().all(|&count| count > LISTS / 50), "{seen:?}");
    sizes.assert_all(sizes::around_bytes(65).chain(sizes::LONGEST), 1);
}

#[test]
fn checks_of_damaged_sheets_and_lists() {
    let mut random = Random::new(47);
    let mut numbers = [0; 14];
    for _ in 0..DAMAGED {
        let given = damaged_given(&mut random);
        let [proved, plain] = [&PROVED, &PLAIN].map(|library| given.judged(library, &mut random));
        assert_eq!(plain, proved, "{given:?}");
        if let ListVerdict::Refused(number) = plain {
            numbers[usize::from(number)] += 1;
        }
        let [proved, plain] = [&PROVED, &PLAIN].map(|library| given.check_prices(library));
        assert_eq!(plain, proved, "{given:?}");
        if let PriceVerdict::Refused(number) = plain {
            numbers[usize::from(number)] += 1;
        }
    }
    for number in [1, 2, 3, 4, 5, 6, 7, 8, 10, 13] {
        assert!(numbers[number] > 100, "{numbers:?}");
    }
}

#[test]
fn joined_strands() {
    let mut random = Random::new(48);
    let mut numbers = [0; 13];
    for _ in 0..DAMAGED {
        let pair = any_pair(&mut random);
        let length = lent_length(&mut random, &pair);
        let answer = joined(&PLAIN, &mut random, &pair, length);
        numbers[usize::from(answer.err().unwrap_or(0))] += 1;
    }
    for number in [0, 1, 2, 3, 4, 5, 8, 12] {
        assert!(numbers[number] > 100, "{numbers:?}");
    }
}

#[test]
fn measures_of_sheets() {
    let mut random = Random::new(51);
    let mut numbers = [0; 15];
    let mut sizes = sizes::Seen::default();
    for _ in 0..SHEETS {
        let (sheet, kept) = measures::any(&PLAIN, &mut random);
        let (_, damaged) = measures::damaged(&PLAIN, &mut random);
        for answer in [kept, damaged] {
            numbers[usize::from(measures::number(&answer))] += 1;
        }
        sizes.add(&sheet);
    }
    for number in [0, 1, 2, 3, 4, 5, 14] {
        assert!(numbers[number] > 100, "{numbers:?}");
    }
    sizes.assert_all(sizes::around_bytes(65).chain(sizes::LONGEST), 1);
}
