//! Lists that respect the measure: worked sheets, what is refused, and both
//! properties beside all lists.

mod common;

use common::{
    a, all_lists, assert_not_wasteful, b, c, e, every_rows, faulty_sheet, first_fault, g,
    owner_bytes, share, Random, SHEET_FAULTS,
};
use reference::limits::{MAX_AGENTS, MAX_CHORES};
use reference::measured_list::{
    by_improving, by_trying, is_wasteful, qualifies, within_measures, Improved, Quotas,
};
use reference::measures::{bundle_costs, by_trying as least_of_all, can_try_all};
use reference::sheet::Sheet;
use reference::{check_list, compose, dominates, measured_list, measures, ListVerdict};

/// Weights of which the difficult one is a multiple of the easy one.
const FACTORED: [(u16, u16); 4] = [(1, 2), (1, 3), (2, 4), (2, 6)];

/// A list of a sheet that is accepted, with no more lent than it must be.
fn listed(sheet: &[u8]) -> Vec<u8> {
    measured_list(sheet, common::chores_of(sheet)).unwrap()
}

/// Every list that qualifies, by the definitions.
fn qualifying(sheet: &[u8]) -> Vec<Vec<u8>> {
    let parsed = Sheet::parse(sheet).unwrap();
    let lists: Vec<Vec<u8>> = all_lists(parsed.agents, parsed.chores)
        .iter()
        .map(|list| owner_bytes(list))
        .collect();
    let is_one = |owners: &&Vec<u8>| {
        is_within(sheet, owners) && !lists.iter().any(|other| dominates(sheet, other, owners))
    };
    lists.iter().filter(is_one).cloned().collect()
}

/// Each agent's own chores against the least costliest bundle of all partitions.
fn is_within(sheet: &[u8], owners: &[u8]) -> bool {
    let parsed = Sheet::parse(sheet).unwrap();
    (0..parsed.agents).all(|agent| {
        let costs: Vec<u32> = parsed.costs(agent).collect();
        own_cost(sheet, owners, agent) <= least_of_all(&costs, parsed.agents)
    })
}

/// What an agent's chores cost it.
fn own_cost(sheet: &[u8], owners: &[u8], agent: usize) -> u32 {
    let costs: Vec<u32> = Sheet::parse(sheet).unwrap().costs(agent).collect();
    let owner: Vec<usize> = owners.iter().map(|&i| usize::from(i) - 1).collect();
    bundle_costs(&costs, &owner)[agent]
}

#[test]
fn lettered_sheets() {
    assert_eq!(listed(&a()), []);
    // Agent 1 may have two chores of four, agent 2 two difficult ones.
    assert_eq!(listed(&b()), [1, 1, 2, 2]);
    // Agent 1 may have three chores of five.
    assert_eq!(listed(&c()), [1, 1, 1, 2, 2]);
    // Each has what it finds easy, and any other list is wasteful.
    assert_eq!(listed(&e()), [1, 2]);
    assert_eq!(qualifying(&e()), [[1, 2]]);
    assert!(qualifying(&g()).contains(&listed(&g())));
}

/// Weights and rows with all lists that qualify.
type Row = (
    (u16, u16),
    &'static [&'static str],
    &'static [&'static [u8]],
);

#[test]
fn worked_sheets() {
    let table: [Row; 10] = [
        // One agent has all chores.
        ((1, 3), &["eed"], &[&[1, 1, 1]]),
        ((1, 3), &["", "", ""], &[&[]]),
        // A chore that nobody finds easy goes to anybody.
        ((1, 3), &["d", "d"], &[&[1], &[2]]),
        // One that agent 2 finds easy may be agent 1's: handed over, it burdens agent 2.
        ((1, 3), &["d", "e"], &[&[1], &[2]]),
        // All easy: two and one.
        (
            (5, 10),
            &["eee", "eee"],
            &[
                &[1, 1, 2],
                &[1, 2, 1],
                &[1, 2, 2],
                &[2, 1, 1],
                &[2, 1, 2],
                &[2, 2, 1],
            ],
        ),
        // All difficult: one each.
        ((1, 3), &["dd", "dd"], &[&[1, 2], &[2, 1]]),
        // Fewer chores than agents: one each at most, and agent 1 none but the first.
        (
            (1, 2),
            &["ed", "dd", "dd"],
            &[&[1, 2], &[1, 3], &[2, 3], &[3, 2]],
        ),
        // Agent 1 may have one chore, and agent 2 finds the second difficult.
        ((1, 2), &["ee", "ed"], &[&[2, 1]]),
        // Agent 2 has the third chore, and with the second that would be too much.
        ((1, 2), &["edd", "ede"], &[&[1, 1, 2], &[2, 1, 2]]),
        // Agent 2 may have two chores: those that agent 1 finds difficult.
        ((1, 2), &["eedd", "eeee"], &[&[1, 1, 2, 2]]),
    ];
    for ((easy, difficult), rows, expected) in table {
        let sheet = compose::sheet(easy, difficult, rows);
        let all = qualifying(&sheet);
        assert_eq!(all, expected, "{rows:?}");
        // The first of them is found, since there are few.
        assert_eq!(listed(&sheet), all[0], "{rows:?}");
    }
}

#[test]
fn a_reduction_that_goes_wrong() {
    // By the rule that the report has for chores agent 1 gets three of them.
    let sheet = compose::sheet(1, 3, &["eeee", "deee"]);
    assert_eq!(measures(&sheet), Ok(vec![2, 3]));
    assert!(!within_measures(&sheet, &[1, 1, 1, 2]));
    let all = qualifying(&sheet);
    let expected = [[1, 1, 2, 2], [1, 2, 1, 2], [1, 2, 2, 1], [1, 2, 2, 2]];
    assert_eq!(all, expected);
    for owners in &all {
        assert!(own_cost(&sheet, owners, 0) <= 2, "{owners:?}");
    }
    assert!(all.contains(&listed(&sheet)));
    let Improved { owner, .. } = improved(&sheet);
    assert!(all.contains(&counted_from_1(&owner)));
}

#[test]
fn a_share_out_may_cost_more_than_a_measure() {
    let sheet = compose::sheet(1, 2, &["edd", "ede"]);
    assert_eq!(measures(&sheet), Ok(vec![3, 2]));
    let (owners, ..) = share(&sheet).unwrap();
    assert_eq!(owners, [1, 2, 2]);
    assert_eq!(own_cost(&sheet, &owners, 1), 3);
    assert!(!within_measures(&sheet, &owners) && !is_wasteful(&sheet, &owners));
}

/// Weights and rows, a list, whether it is within the measures, and whether it is
/// wasteful.
type Judged = (
    (u16, u16),
    &'static [&'static str],
    &'static [u8],
    bool,
    bool,
);

#[test]
fn each_property_without_the_other() {
    let table: [Judged; 9] = [
        ((1, 2), &["ed", "de"], &[1, 2], true, false),
        // Within, but each has what the other finds easy.
        ((1, 2), &["ed", "de"], &[2, 1], true, true),
        // Not wasteful, since agent 1 finds all easy; but it has one too many.
        ((1, 2), &["eee", "eee"], &[1, 1, 1], false, false),
        ((1, 3), &["eeee", "deee"], &[1, 1, 1, 2], false, false),
        // Neither: agent 1 has all that it finds difficult, and not what it finds easy.
        ((1, 2), &["dedd", "edee"], &[1, 2, 1, 1], false, true),
        // At the measure, and one easy chore above it.
        ((1, 3), &["dddde", "eeeee"], &[1, 1, 2, 2, 1], true, false),
        (
            (2, 6),
            &["ddddee", "eeeeee"],
            &[1, 1, 2, 2, 1, 1],
            false,
            false,
        ),
        // A row of difficult marks only is not read as easy: 6 is agent 1's
        // measure.
        ((1, 3), &["dddd", "eeee"], &[1, 1, 2, 2], true, false),
        ((1, 3), &["dddd", "eeee"], &[1, 1, 1, 2], false, false),
    ];
    for ((easy, difficult), rows, owners, within, wasteful) in table {
        let sheet = compose::sheet(easy, difficult, rows);
        assert_eq!(within_measures(&sheet, owners), within, "{rows:?}");
        assert_eq!(is_wasteful(&sheet, owners), wasteful, "{rows:?}");
        assert_eq!(qualifies(&sheet, owners), within && !wasteful, "{rows:?}");
    }
}

#[test]
fn a_list_that_qualifies_need_not_be_even() {
    // Agent 1 may have two easy chores for a difficult one, and agent 3 has none.
    let sheet = compose::sheet(1, 2, &["dee", "eee", "eee"]);
    assert_eq!(measures(&sheet), Ok(vec![2, 1, 1]));
    let owners = [2, 1, 1];
    assert!(qualifies(&sheet, &owners));
    let verdict = check_list(&sheet, &owners, 1, &mut [0; 3]);
    assert_eq!(verdict, ListVerdict::Unfair(1, 3));
}

#[test]
fn what_is_no_list_does_not_qualify() {
    let sheet = compose::sheet(1, 2, &["ed", "de"]);
    let no_multiple = compose::sheet(2, 3, &["ed", "de"]);
    let cut = &sheet[..8];
    assert!(qualifies(&sheet, &[1, 2]));
    for (sheet, owners) in [
        (&sheet[..], &[1][..]),
        (&sheet, &[1, 2, 1]),
        (&sheet, &[0, 2]),
        (&sheet, &[1, 3]),
        (&no_multiple, &[1, 2]),
        (cut, &[1, 2]),
    ] {
        assert!(!within_measures(sheet, owners) && !qualifies(sheet, owners));
    }
}

/// By improvements, however few lists there are.
fn improved(sheet: &[u8]) -> Improved {
    by_improving(&Sheet::parse(sheet).unwrap(), &measures(sheet).unwrap())
}

fn counted_from_1(owner: &[u8]) -> Vec<u8> {
    owner.iter().map(|agent| agent + 1).collect()
}

fn quotas(sheet: &[u8]) -> Quotas {
    Quotas::of(&Sheet::parse(sheet).unwrap(), &measures(sheet).unwrap())
}

/// The list before any improvement, owners counted from 1.
fn opened(sheet: &[u8], quotas: &Quotas) -> Option<Vec<u8>> {
    let owner = quotas.opened(&Sheet::parse(sheet).unwrap())?;
    Some(counted_from_1(&owner))
}

#[test]
fn quotas_are_not_enough() {
    // Agent 1 has most difficult marks and is served first, with one place and one
    // easy chore, its first; agent 2 takes the next two, and the last one is left.
    let sheet = compose::sheet(1, 2, &["eedd", "eeee"]);
    let owners = opened(&sheet, &quotas(&sheet)).unwrap();
    assert_eq!(owners, [1, 2, 2, 1]);
    assert!(within_measures(&sheet, &owners) && is_wasteful(&sheet, &owners));
    let Improved {
        owner,
        improvements,
    } = improved(&sheet);
    assert_eq!(
        (counted_from_1(&owner), improvements),
        (vec![1, 1, 2, 2], 1)
    );
}

#[test]
fn worked_quotas() {
    let sheet = compose::sheet(2, 6, &["dddee", "edeee", "eeeee"]);
    let quotas = quotas(&sheet);
    // For agent 1 the bundles cost as much as 4, 4 and 3 easy chores.
    assert_eq!((quotas.times, &quotas.measure[..]), (3, &[4, 3, 2][..]));
    assert_eq!(quotas.order, [0, 1, 2]);
    // Four difficult marks, and three agents.
    assert_eq!(
        (quotas.places, &quotas.most_places[..]),
        (1, &[1, 1, 0][..])
    );
    // Agent 1 has the place and chore 4, agents 2 and 3 what they find easy first.
    assert_eq!(opened(&sheet, &quotas), Some(vec![2, 3, 2, 1, 2]));
    // Equal numbers of difficult marks are served by number.
    let order = self::quotas(&compose::sheet(1, 2, &["eed", "dde", "ede", "ded"])).order;
    assert_eq!(order, [1, 3, 0, 2]);
}

/// A sheet, and what makes its quotas wrong.
type Change<'a> = (&'a [u8], fn(&mut Quotas));

/// Other quotas, with which a chore is left that has no place.
#[test]
fn wrong_quotas() {
    let served = compose::sheet(1, 2, &["ee", "ed"]);
    let rounded = compose::sheet(1, 3, &["eeee", "eeed"]);
    let fewer = compose::sheet(1, 3, &["d"]);
    let few_each = compose::sheet(1, 3, &["d", "d"]);
    let table: [Change; 5] = [
        // Agents served by number; with the fewest difficult marks first.
        (&served, |quotas| quotas.order.sort_unstable()),
        (&served, |quotas| quotas.order.reverse()),
        // As many places as difficult marks by agent, rounded up; one less.
        (&rounded, |quotas| quotas.places += 1),
        (&fewer, |quotas| quotas.places -= 1),
        // An agent's places by its difficult marks, and not by its measure.
        (&few_each, |quotas| quotas.most_places = vec![0; 2]),
    ];
    for (sheet, change) in table {
        let mut quotas = quotas(sheet);
        let right = opened(sheet, &quotas).unwrap();
        assert!(within_measures(sheet, &right), "{quotas:?}");
        change(&mut quotas);
        assert_eq!(opened(sheet, &quotas), None, "{quotas:?}");
    }
}

#[test]
fn any_weights() {
    for difficult in 2..=60 {
        for easy in 1..difficult {
            let expected = match difficult % easy {
                0 => Ok(vec![1, 2]),
                _ => Err(14),
            };
            let sheet = compose::sheet(easy, difficult, &["ed", "de"]);
            assert_eq!(measured_list(&sheet, 2), expected);
        }
    }
    // Also where there is nothing to list.
    assert_eq!(measured_list(&compose::sheet(2, 3, &["", ""]), 0), Err(14));
}

#[test]
fn the_first_of_any_faults() {
    let numbers = [&SHEET_FAULTS[..], &[14, 8]].concat();
    for faults in 0..1_usize << numbers.len() {
        let has = |fault: usize| faults >> fault & 1 == 1;
        let mut sheet = faulty_sheet(2, 4, faults);
        // The easy weight is 2. Where the difficult one breaks its rule it may be a
        // multiple or not.
        if let Some(difficult) = sheet.get_mut(6) {
            *difficult = [[4, 3], [2, 1]][usize::from(has(3))][usize::from(has(6))];
        }
        let lent = if has(7) { 3 } else { 4 };
        let expected = first_fault(faults, &numbers);
        let answer = measured_list(&sheet, lent);
        assert_eq!(answer.err(), expected, "faults {faults:b}");
    }
}

#[test]
fn lent_lists_of_any_length() {
    let sheet = compose::sheet(1, 3, &["eeee", "deee"]);
    for lent in 0..10 {
        let expected = if lent < 4 { Err(8) } else { Ok(listed(&sheet)) };
        assert_eq!(measured_list(&sheet, lent), expected, "{lent}");
    }
    // None for no chores.
    assert_eq!(measured_list(&a(), 0), Ok(Vec::new()));
    let longest = compose::sheet(1, 3, &vec!["e".repeat(MAX_CHORES); 2]);
    assert_eq!(measured_list(&longest, MAX_CHORES - 1), Err(8));
    assert!(measured_list(&longest, MAX_CHORES).is_ok());
}

/// The sizes of which every sheet is gone through.
const SIZES: [(usize, usize); 12] = [
    (1, 0),
    (1, 5),
    (2, 1),
    (2, 2),
    (2, 3),
    (2, 4),
    (2, 5),
    (3, 1),
    (3, 2),
    (3, 3),
    (4, 2),
    (5, 2),
];

#[test]
fn both_properties_on_every_small_sheet() {
    let (mut lists, mut uneven, mut improvements) = (0, 0, 0);
    for (agents, chores) in SIZES {
        for rows in every_rows(agents, chores) {
            for (easy, difficult) in FACTORED {
                let sheet = compose::sheet(easy, difficult, &rows);
                let all = qualifying(&sheet);
                // The first of all, and another way's.
                assert_eq!(Some(&listed(&sheet)), all.first(), "{rows:?}");
                let other = improved(&sheet);
                let owners = counted_from_1(&other.owner);
                assert!(all.contains(&owners), "{rows:?} {owners:?}");
                lists += 1;
                improvements += other.improvements;
                uneven += usize::from(!is_even(&sheet, &owners));
            }
        }
    }
    println!("{lists} {uneven} {improvements}");
    assert!(improvements > 500 && uneven > 100 && uneven < lists);
}

fn is_even(sheet: &[u8], owners: &[u8]) -> bool {
    let verdict = check_list(sheet, owners, 1, &mut vec![0; owners.len()]);
    !matches!(verdict, ListVerdict::Unfair(..))
}

#[test]
fn every_list_of_small_sheets_is_judged_by_the_definitions() {
    for (agents, chores) in [(1, 3), (2, 2), (2, 3), (2, 4), (3, 2), (3, 3)] {
        for rows in every_rows(agents, chores) {
            let sheet = compose::sheet(1, 2, &rows);
            let all = qualifying(&sheet);
            for owner in all_lists(agents, chores) {
                let owners = owner_bytes(&owner);
                let expected = all.contains(&owners);
                assert_eq!(qualifies(&sheet, &owners), expected, "{rows:?} {owners:?}");
                assert_eq!(within_measures(&sheet, &owners), is_within(&sheet, &owners));
            }
        }
    }
}

#[test]
fn larger_sheets_that_can_be_tried() {
    let mut random = Random::new(95);
    let mut improvements = 0;
    for _ in 0..1_500 {
        let (agents, most) = [(2, 9), (3, 6), (4, 5), (5, 4), (8, 3)][random.below(5)];
        let chores = random.below(most + 1);
        let (easy, difficult) = random.factored();
        let sheet = compose::sheet(easy, difficult, &random.rows(agents, chores));
        assert!(qualifies(&sheet, &listed(&sheet)), "{sheet:?}");
        let other = improved(&sheet);
        assert!(
            qualifies(&sheet, &counted_from_1(&other.owner)),
            "{sheet:?}"
        );
        improvements += other.improvements;
    }
    assert!(improvements > 10, "{improvements}");
}

/// One sheet of any size: nobody's chores cost it more than its measure, and there
/// are prices that show that nothing dominates. Hands back how many improvements
/// were made: no more than there are places, since the list before them has no more
/// chores that are difficult for their owners, and each makes them fewer.
fn assert_measured(sheet: &[u8]) -> usize {
    let owners = listed(sheet);
    assert!(within_measures(sheet, &owners), "{sheet:?} {owners:?}");
    assert_not_wasteful(sheet, &owners);
    let Improved {
        owner,
        improvements,
    } = improved(sheet);
    let owners = counted_from_1(&owner);
    assert!(within_measures(sheet, &owners), "{sheet:?} {owners:?}");
    assert_not_wasteful(sheet, &owners);
    assert!(improvements <= quotas(sheet).places, "{sheet:?}");
    improvements
}

#[test]
fn sheets_of_any_size() {
    let mut random = Random::new(96);
    let (mut tried, mut improvements) = (0, 0);
    for round in 0..1_500 {
        let (agents, chores) = match round % 3 {
            0 => random.size(),
            1 => (1 + random.below(8), random.below(30)),
            _ => (1 + random.below(5), random.below(8)),
        };
        let (easy, difficult) = random.factored();
        let sheet = compose::sheet(easy, difficult, &random.rows(agents, chores));
        improvements += assert_measured(&sheet);
        tried += usize::from(can_try_all(&Sheet::parse(&sheet).unwrap()));
    }
    assert!((300..1_200).contains(&tried), "{tried}");
    assert!(improvements > 1_000, "{improvements}");
}

#[test]
fn the_largest_sheets() {
    let mut random = Random::new(97);
    for _ in 0..3 {
        let (easy, difficult) = random.factored();
        let rows = random.rows(MAX_AGENTS, MAX_CHORES);
        assert_measured(&compose::sheet(easy, difficult, &rows));
    }
}

#[test]
fn few_lists_are_tried() {
    // The first of all that qualify, where another way finds another one.
    let sheet = compose::sheet(1, 3, &["eeee", "deee"]);
    let parsed = Sheet::parse(&sheet).unwrap();
    let first = by_trying(&parsed, &measures(&sheet).unwrap());
    assert_eq!(first, [0, 0, 1, 1]);
    assert_eq!(improved(&sheet).owner, [0, 1, 1, 1]);
    assert_eq!(listed(&sheet), counted_from_1(&first));
    // The same lists as partitions are few.
    for (chores, tried) in [(12, true), (13, false)] {
        let sheet = compose::sheet(1, 2, &["e".repeat(chores), "d".repeat(chores)]);
        let parsed = Sheet::parse(&sheet).unwrap();
        assert_eq!(can_try_all(&parsed), tried);
        let measures = measures(&sheet).unwrap();
        let owner = if tried {
            by_trying(&parsed, &measures)
        } else {
            by_improving(&parsed, &measures).owner
        };
        assert_eq!(listed(&sheet), counted_from_1(&owner));
    }
}
