//! The list check: the verdict, and the list that is shown.

use crate::lists::{damaged_given, near_slack, slack, Given};
use crate::random::{self, Random};
use crate::{header, shapes, Checks, Second, PROVED};
use reference::costs::Costs;
use reference::fairness::first_unfair_pair;
use reference::limits::MAX_SLACK;
use reference::sheet::Sheet;
use reference::{check_list, dominates, is_small_enough, refusal, ListVerdict};

/// Every slack that there may be, and one more.
pub const SLACKS: usize = MAX_SLACK as usize + 2;

/// A program's list check, with what it may write looked at.
pub fn judged(program: &dyn Checks, given: &Given, random: &mut Random) -> ListVerdict {
    let Given { sheet, owners, .. } = given;
    let before = random.bytes(given.lent + 8);
    let mut after = before.clone();
    let verdict = program.check_list(sheet, owners, given.slack, &mut after[..given.lent]);
    if verdict == ListVerdict::Wasteful {
        let chores = header::chores(sheet);
        assert!(
            dominates(sheet, &after[..chores], owners),
            "the list shown does not dominate: {sheet:?} {owners:?} {:?}",
            &after[..chores]
        );
        assert_eq!(
            after[chores..],
            before[chores..],
            "written beyond m: {sheet:?} {owners:?}"
        );
    } else {
        assert_eq!(
            after, before,
            "written without `wasteful`: {sheet:?} {owners:?}"
        );
    }
    verdict
}

/// The library's verdict, which is the second program's.
pub fn compared(random: &mut Random, given: &Given) -> ListVerdict {
    let verdict = given.judged(&PROVED, random);
    assert_eq!(verdict, expected(random, given), "{given:?}");
    verdict
}

/// The library's verdict on a list that must hold at every slack but 0. The
/// generator is left alone.
pub fn assert_holds(sheet: &[u8], owners: &[u8]) {
    let mut lent = vec![0; owners.len()];
    for slack in 1..=MAX_SLACK {
        let verdict = PROVED.check_list(sheet, owners, slack, &mut lent);
        assert_eq!(verdict, ListVerdict::Holds, "{slack} {sheet:?} {owners:?}");
    }
}

/// The second program's verdict, by its check for sheets of any size. Where there
/// are few enough allocations to try, its other check says the same.
fn expected(random: &mut Random, given: &Given) -> ListVerdict {
    let fast = given.judged(&Second, random);
    let mut lent = vec![0; given.lent];
    match check_list(&given.sheet, &given.owners, given.slack, &mut lent) {
        ListVerdict::Undecided => {}
        slow => assert_eq!(fast, slow, "{given:?}"),
    }
    fast
}

/// The library's verdict, which is the second program's by its check for sheets
/// of any size; its pair is that of the definition. No allocation is tried.
fn compared_by_pair(random: &mut Random, given: &Given) -> ListVerdict {
    let verdict = given.judged(&PROVED, random);
    assert_eq!(verdict, given.judged(&Second, random), "{given:?}");
    if given.slack <= MAX_SLACK {
        let costs = Costs::as_marked(&Sheet::parse(&given.sheet).expect("it was accepted"));
        let owner: Vec<usize> = given.owners.iter().map(|&i| usize::from(i) - 1).collect();
        let pair = match verdict {
            ListVerdict::Unfair(i, j) => Some((i - 1, j - 1)),
            _ => None,
        };
        let defined = first_unfair_pair(&costs, &owner, given.slack);
        assert_eq!(pair, defined, "{given:?}");
    }
    verdict
}

/// A list that breaks no rule, lent enough, at a slack that may.
fn of_list(random: &mut Random, sheet: Vec<u8>, owners: Vec<u8>, slack: u8) -> Given {
    Given {
        lent: owners.len() + random.below(3),
        sheet,
        owners,
        slack,
        prices: Vec::new(),
    }
}

/// Refused for its slack, or not at all.
fn assert_known(given: &Given, verdict: ListVerdict) {
    let number = match verdict {
        ListVerdict::Refused(number) => number,
        _ => 0,
    };
    let of_slack = if given.slack > MAX_SLACK {
        refusal::SLACK
    } else {
        0
    };
    assert_eq!(number, of_slack, "{given:?}");
}

/// With few enough allocations to try them all.
pub fn small(random: &mut Random) -> (Given, ListVerdict) {
    let sheet = shapes::tiny_sheet(random);
    assert!(is_small_enough(&sheet));
    let slack = slack(random);
    let owners = if random.chance(70) {
        near_slack(&sheet, slack, random)
    } else {
        random::owners(random, header::agents(&sheet), header::chores(&sheet))
    };
    let given = of_list(random, sheet, owners, slack);
    let verdict = compared(random, &given);
    assert_known(&given, verdict);
    (given, verdict)
}

/// A list near the share-out's mostly, and about as unfair as its slack allows.
fn any_near(random: &mut Random, make: fn(&mut Random) -> Vec<u8>) -> Given {
    let (sheet, slack) = (make(random), slack(random));
    let owners = near_slack(&sheet, slack, random);
    of_list(random, sheet, owners, slack)
}

/// Near the share-out's mostly.
pub fn near_share_out(
    random: &mut Random,
    make: fn(&mut Random) -> Vec<u8>,
) -> (Given, ListVerdict) {
    let given = any_near(random, make);
    let verdict = compared(random, &given);
    assert_known(&given, verdict);
    (given, verdict)
}

/// The same, but fast, since no allocations are tried.
pub fn near_by_pair(random: &mut Random, make: fn(&mut Random) -> Vec<u8>) -> (Given, ListVerdict) {
    let given = any_near(random, make);
    let verdict = compared_by_pair(random, &given);
    assert_known(&given, verdict);
    (given, verdict)
}

/// One list at every slack. What is handed back has any of them.
pub fn at_every_slack(
    random: &mut Random,
    make: fn(&mut Random) -> Vec<u8>,
) -> (Given, [ListVerdict; SLACKS]) {
    let mut given = any_near(random, make);
    let any = given.slack;
    let mut slack = 0;
    let verdicts = [(); SLACKS].map(|()| {
        given.slack = slack;
        slack += 1;
        let verdict = compared_by_pair(random, &given);
        assert_known(&given, verdict);
        verdict
    });
    given.slack = any;
    assert_ordered(&given, &verdicts[..SLACKS - 1]);
    (given, verdicts)
}

/// What holds, or is wasteful, at one slack is so at every larger one; where a
/// list is still unfair, no pair comes before the first at the slack before.
fn assert_ordered(given: &Given, verdicts: &[ListVerdict]) {
    for pair in verdicts.windows(2) {
        let is_ordered = match (pair[0], pair[1]) {
            (ListVerdict::Unfair(i, j), ListVerdict::Unfair(k, l)) => (i, j) <= (k, l),
            (ListVerdict::Unfair(..), _) => true,
            (before, now) => before == now,
        };
        assert!(is_ordered, "{verdicts:?} {given:?}");
    }
}

/// With any faults.
pub fn damaged(random: &mut Random) -> (Given, ListVerdict) {
    let given = damaged_given(random);
    let verdict = compared(random, &given);
    (given, verdict)
}
