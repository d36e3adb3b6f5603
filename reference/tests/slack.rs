//! The list check at every slack: lists to try, and its definition in other
//! words.

mod common;

use common::{all_lists, c, every_rows, share, Random};
use reference::costs::Costs;
use reference::fairness::first_unfair_pair;
use reference::limits::MAX_SLACK;
use reference::sheet::Sheet;
use reference::{check_list, compose, plain_checks, ListVerdict};
use ListVerdict::{Holds, Refused, Unfair, Wasteful};

/// By both checks, with a list of this length lent.
fn lent(sheet: &[u8], owners: &[u8], slack: u8, length: usize) -> ListVerdict {
    let [slow, fast] = [check_list, plain_checks::check_list]
        .map(|check| check(sheet, owners, slack, &mut vec![0; length]));
    assert_eq!(slow, fast, "{slack} {sheet:?} {owners:?}");
    slow
}

fn verdict(sheet: &[u8], owners: &[u8], slack: u8) -> ListVerdict {
    lent(sheet, owners, slack, owners.len())
}

/// At slack 0, 1, 2 and 3. Weights are 1 and 3.
fn verdicts(rows: &[&str], owners: &[u8]) -> [ListVerdict; 4] {
    let sheet = compose::sheet(1, 3, rows);
    [0, 1, 2, 3].map(|slack| verdict(&sheet, owners, slack))
}

#[test]
fn another_is_envied_first_at_another_slack() {
    // To agent 1 its chores cost 5, then 2, then 1, agent 2's chore 3, and agent 3's 1.
    assert_eq!(
        verdicts(&["edede", "ddded", "dddde"], &[1, 1, 1, 2, 3]),
        [Unfair(1, 2), Unfair(1, 3), Holds, Holds]
    );
    // With nothing left at slack 2.
    assert_eq!(
        verdicts(&["ede", "ede", "ede"], &[1, 1, 2]),
        [Unfair(1, 2), Unfair(1, 3), Holds, Holds]
    );
}

#[test]
fn another_envies_first_at_another_slack() {
    let rows = ["eeeeee"; 3];
    assert_eq!(
        verdicts(&rows, &[1, 1, 2, 2, 2, 3]),
        [Unfair(1, 3), Unfair(2, 3), Holds, Holds]
    );
}

#[test]
fn a_difficult_chore_goes_before_an_easy_one() {
    // At slack 2 one of each is taken off: two easy ones would leave 3.
    assert_eq!(
        verdicts(&["edee", "ddde"], &[1, 1, 1, 2]),
        [Unfair(1, 2), Unfair(1, 2), Holds, Holds]
    );
    // Two difficult ones: one of each would leave 4.
    assert_eq!(
        verdicts(&["ededee", "ddddee"], &[1, 1, 1, 1, 2, 2]),
        [Unfair(1, 2), Unfair(1, 2), Holds, Holds]
    );
    // Two difficult ones and an easy one.
    assert_eq!(
        verdicts(&["edede", "dddde"], &[1, 1, 1, 1, 2]),
        [Unfair(1, 2), Unfair(1, 2), Unfair(1, 2), Holds]
    );
}

#[test]
fn waste_is_told_at_each_slack_that_the_list_is_fair_at() {
    assert_eq!(
        verdicts(&["ed", "de"], &[2, 1]),
        [Unfair(1, 2), Wasteful, Wasteful, Wasteful]
    );
    assert_eq!(
        verdicts(&["dde", "eed"], &[1, 1, 2]),
        [Unfair(1, 2), Unfair(1, 2), Wasteful, Wasteful]
    );
}

#[test]
fn limit_of_the_slack() {
    let (sheet, owners) = (c(), [2, 2, 1, 1, 2]);
    for slack in 0..=u8::MAX {
        let expected = match slack {
            0 => Unfair(2, 1),
            1..=8 => Holds,
            _ => Refused(13),
        };
        assert_eq!(verdict(&sheet, &owners, slack), expected, "{slack}");
        // A lent list that is too short comes first.
        assert_eq!(lent(&sheet, &owners, slack, 4), Refused(8), "{slack}");
    }
    assert_eq!(MAX_SLACK, 8);
}

#[test]
fn whoever_has_no_more_chores_than_the_slack_envies_nobody() {
    let mut random = Random::new(81);
    for chores in 0..=10 {
        let owners = vec![2; chores];
        for slack in 0..=MAX_SLACK {
            let sheet = random.sheet(3, chores);
            let envies = verdict(&sheet, &owners, slack) == Unfair(2, 1);
            assert_eq!(envies, chores > slack.into(), "{slack} {sheet:?}");
        }
    }
}

/// The first pair, by i and then by j, with `envies` true of what each of i's
/// chores costs i, and of what all of j's would.
fn first_pair(
    costs: &Costs,
    owner: &[usize],
    envies: impl Fn(&[u64], u64) -> bool,
) -> Option<(usize, usize)> {
    let to = |judge: usize, holder: usize| -> Vec<u64> {
        let held = (0..costs.chores).filter(|&chore| owner[chore] == holder);
        held.map(|chore| costs.of(judge, chore)).collect()
    };
    let envies = |i: usize, j: usize| envies(&to(i, i), to(i, j).iter().sum());
    let mut all = (0..costs.agents).flat_map(|i| (0..costs.agents).map(move |j| (i, j)));
    all.find(|&(i, j)| i != j && envies(i, j))
}

/// Plain envy: nothing is taken off.
fn envies_at_all(own: &[u64], other: u64) -> bool {
    own.iter().sum::<u64>() > other
}

/// Not EF1: no chore can be taken off so that the rest costs no more.
fn envies_up_to_one(own: &[u64], other: u64) -> bool {
    let all: u64 = own.iter().sum();
    !own.is_empty() && own.iter().all(|cost| all - cost > other)
}

/// Whichever chores are taken off, no more than the slack, the rest costs more.
fn envies_up_to(slack: u8, own: &[u64], other: u64) -> bool {
    let mut few = (0..1_u32 << own.len()).filter(|off| off.count_ones() <= slack.into());
    let rest = |off: u32| -> u64 {
        let kept = (0..own.len()).filter(|place| off >> place & 1 == 0);
        kept.map(|place| own[place]).sum()
    };
    few.all(|off| rest(off) > other)
}

/// One list at every slack, by the definition in other words; how often the pair
/// is another one than at the slack before.
fn assert_as_defined(costs: &Costs, owner: &[usize]) -> usize {
    let pair = |slack| first_unfair_pair(costs, owner, slack);
    assert_eq!(pair(0), first_pair(costs, owner, envies_at_all));
    assert_eq!(pair(1), first_pair(costs, owner, envies_up_to_one));
    let mut others = 0;
    for slack in 0..=MAX_SLACK {
        let envies = |own: &[u64], other| envies_up_to(slack, own, other);
        let now = pair(slack);
        assert_eq!(now, first_pair(costs, owner, envies), "{slack} {owner:?}");
        // Nobody envies who did not before, so that the first pair is no earlier.
        if let Some(now) = now.filter(|_| slack > 0) {
            let before = pair(slack - 1).expect("unfair at a smaller slack");
            assert!(before <= now, "{slack} {owner:?}");
            others += usize::from(before < now);
        }
    }
    others
}

#[test]
fn every_list_of_every_tiny_sheet_as_defined() {
    let mut others = 0;
    for (agents, chores) in [(1, 3), (2, 1), (2, 2), (2, 4), (3, 2), (3, 3)] {
        let lists = all_lists(agents, chores);
        for rows in every_rows(agents, chores) {
            for (easy, difficult) in [(1, 3), (2, 3)] {
                let sheet = compose::sheet(easy, difficult, &rows);
                let costs = Costs::as_marked(&Sheet::parse(&sheet).unwrap());
                let changes = lists.iter().map(|list| assert_as_defined(&costs, list));
                others += changes.sum::<usize>();
            }
        }
    }
    assert!(others > 1_000, "{others}");
}

/// The share-out's list, with up to so many chores handed to one agent.
fn piled(random: &mut Random, sheet: &[u8], most: usize) -> Vec<u8> {
    let (mut owners, ..) = share(sheet).unwrap();
    let agent = 1 + random.below(sheet[0].into()) as u8;
    for _ in 0..random.below(most + 1) {
        if !owners.is_empty() {
            let chore = random.below(owners.len());
            owners[chore] = agent;
        }
    }
    owners
}

#[test]
fn random_lists_as_defined() {
    let mut random = Random::new(82);
    let mut others = 0;
    for _ in 0..2_000 {
        let (agents, chores) = (1 + random.below(4), random.below(13));
        let sheet = random.sheet(agents, chores);
        let owners = piled(&mut random, &sheet, 20);
        let costs = Costs::as_marked(&Sheet::parse(&sheet).unwrap());
        let owner: Vec<usize> = owners.iter().map(|&i| usize::from(i) - 1).collect();
        others += assert_as_defined(&costs, &owner);
    }
    assert!(others > 100, "{others}");
}

#[test]
fn what_holds_at_one_slack_holds_at_every_larger_one() {
    let mut random = Random::new(83);
    // By slack, how many lists are told otherwise than at the slack before.
    let mut changes = [0; 9];
    for _ in 0..1_000 {
        let (agents, chores) = [(2, 12), (3, 7), (4, 5)][random.below(3)];
        let sheet = random.sheet(agents, chores);
        let owners = piled(&mut random, &sheet, 20);
        let all = [0, 1, 2, 3, 4, 5, 6, 7, 8].map(|slack| verdict(&sheet, &owners, slack));
        for (slack, two) in all.windows(2).enumerate() {
            match two {
                [Unfair(..), now] => changes[slack + 1] += usize::from(*now != two[0]),
                [before, now] => assert_eq!(now, before, "{sheet:?} {owners:?}"),
                _ => unreachable!(),
            }
        }
    }
    assert!(changes[1..].iter().all(|&count| count > 10), "{changes:?}");
}
