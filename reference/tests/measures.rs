//! Everyone's own measure: worked sheets, what is refused, and dealing beside all
//! partitions.

mod common;

use common::{a, all_lists, b, c, every_rows, faulty_sheet, first_fault, g, Random, SHEET_FAULTS};
use reference::limits::{MAX_AGENTS, MAX_CHORES, MAX_WEIGHT};
use reference::measures::{bundle_costs, by_dealing, by_trying, can_try_all, dealt};
use reference::sheet::Sheet;
use reference::{compose, measures};

/// Weights of which the difficult one is a multiple of the easy one.
const FACTORED: [(u16, u16); 4] = [(1, 2), (1, 3), (2, 4), (2, 6)];

fn measured(easy: u16, difficult: u16, rows: &[&str]) -> Result<Vec<u32>, u8> {
    measures(&compose::sheet(easy, difficult, rows))
}

#[test]
fn lettered_sheets() {
    assert_eq!(measures(&a()), Ok(vec![0]));
    // Agent 2's row of difficult marks only is not read as easy.
    assert_eq!(measures(&b()), Ok(vec![2, 6]));
    // To agent 2 both bundles have two difficult chores, and one the easy one.
    assert_eq!(measures(&c()), Ok(vec![3, 7]));
    assert_eq!(measures(&g()), Ok(vec![3, 6, 3]));
}

/// Weights and rows with their measures.
type Row = ((u16, u16), &'static [&'static str], &'static [u32]);

#[test]
fn worked_sheets() {
    let table: [Row; 14] = [
        // One agent has one bundle, of all chores.
        ((1, 3), &["eed"], &[5]),
        ((1, 3), &["", "", ""], &[0, 0, 0]),
        // All easy, and all difficult.
        ((1, 3), &["eeeee", "eeeee"], &[3, 3]),
        ((1, 3), &["dddd", "dddd", "dddd"], &[6, 6, 6]),
        ((2, 6), &["eeee", "dddd"], &[4, 12]),
        // Fewer chores than agents.
        ((1, 3), &["ed", "de", "ee"], &[3, 3, 1]),
        ((5, 10), &["e", "d", "d", "e"], &[5, 10, 10, 5]),
        // Easy chores that cost as much as a difficult one, and one more.
        ((1, 3), &["deee", "eeed"], &[3, 3]),
        ((1, 3), &["deeee", "eedee"], &[4, 4]),
        ((2, 4), &["dee", "ede"], &[4, 4]),
        ((2, 4), &["deee", "eeed"], &[6, 6]),
        // Easy chores that fill up one bundle only.
        ((1, 3), &["dddeee", "eddede"], &[6, 6]),
        ((1, 1_000), &["dee", "eee"], &[1_000, 2]),
        ((500, 1_000), &["deee", "dddd"], &[1_500, 2_000]),
    ];
    for ((easy, difficult), rows, expected) in table {
        let answer = measured(easy, difficult, rows);
        assert_eq!(answer, Ok(expected.to_vec()), "{rows:?}");
    }
}

#[test]
fn the_greatest_measures() {
    for (agents, measure) in [(1, 4_000_000), (32, 125_000)] {
        let rows = vec!["d".repeat(MAX_CHORES); agents];
        let sheet = compose::sheet(500, 1_000, &rows);
        assert_eq!(measures(&sheet), Ok(vec![measure; agents]));
    }
}

#[test]
fn any_weights() {
    let most = MAX_WEIGHT as u16;
    for difficult in 2..=most {
        for easy in 1..difficult {
            let expected = match difficult % easy {
                0 => Ok(vec![u32::from(easy + difficult)]),
                _ => Err(14),
            };
            assert_eq!(measured(easy, difficult, &["ed"]), expected);
        }
    }
    // Also where there is nothing to measure.
    assert_eq!(measured(2, 3, &["", ""]), Err(14));
}

#[test]
fn the_sheets_own_numbers_come_first() {
    // Weights are 2 and 3, or 2 and 2.
    for faults in 0..1_usize << SHEET_FAULTS.len() {
        let sheet = faulty_sheet(2, 4, faults);
        let expected = first_fault(faults, &SHEET_FAULTS).unwrap_or(14);
        assert_eq!(measures(&sheet), Err(expected), "faults {faults:b}");
    }
}

/// What each chore costs an agent.
fn costs(sheet: &[u8], agent: usize) -> Vec<u32> {
    Sheet::parse(sheet).unwrap().costs(agent).collect()
}

#[test]
fn worked_partitions() {
    let partition = |row: &str, bundles| {
        let costs = costs(&compose::sheet(1, 2, &[row]), 0);
        let bundle_of = dealt(&costs, bundles);
        let sums = bundle_costs(&costs, &bundle_of)[..bundles].to_vec();
        (bundle_of, sums)
    };
    // A tie goes to the lowest number, and difficult chores go first.
    assert_eq!(partition("eeeee", 3), (vec![0, 1, 2, 0, 1], vec![2, 2, 1]));
    assert_eq!(partition("eded", 2), (vec![0, 0, 1, 1], vec![3, 3]));
    assert_eq!(partition("eeed", 2), (vec![1, 1, 0, 0], vec![3, 2]));
    assert_eq!(partition("ed", 3), (vec![1, 0], vec![2, 1, 0]));
    assert_eq!(partition("", 2), (vec![], vec![0, 0]));
}

#[test]
fn trying_is_the_definition() {
    let mut random = Random::new(91);
    for _ in 0..200 {
        let (bundles, chores) = (1 + random.below(4), random.below(6));
        // Any costs at all.
        let costs: Vec<u32> = (0..chores).map(|_| random.below(20) as u32).collect();
        let costliest = |bundle_of: &Vec<usize>| -> u32 {
            let of = |bundle: usize| (0..chores).filter(move |&chore| bundle_of[chore] == bundle);
            let cost = |bundle: usize| of(bundle).map(|chore| costs[chore]).sum();
            (0..bundles).map(cost).max().unwrap()
        };
        let least = all_lists(bundles, chores).iter().map(costliest).min();
        assert_eq!(Some(by_trying(&costs, bundles)), least, "{costs:?}");
    }
}

#[test]
fn no_partition_of_any_small_sheet_does_better() {
    for (bundles, chores) in (1..=4).flat_map(|n| (0..=7).map(move |m| (n, m))) {
        for row in every_rows(1, chores) {
            for (easy, difficult) in FACTORED {
                let costs = costs(&compose::sheet(easy, difficult, &row), 0);
                let least = by_trying(&costs, bundles);
                assert_eq!(by_dealing(&costs, bundles), least, "{bundles} {costs:?}");
            }
        }
    }
}

#[test]
fn dealing_may_do_worse_without_a_multiple() {
    // Dealt, 3 2 2 and 3 2; but 3 3 and 2 2 2 are even.
    let costs = costs(&compose::sheet(2, 3, &["ddeee"]), 0);
    assert_eq!(by_dealing(&costs, 2), 7);
    assert_eq!(by_trying(&costs, 2), 6);
}

/// What some bundle costs at least, whatever the partition: one has as many
/// difficult chores as there are on average, or more; and one costs as much as
/// they do on average, or more, a multiple of the easy weight.
fn bound(sheet: &Sheet, agent: usize) -> u32 {
    let bundles = sheet.agents as u32;
    let difficult = (sheet.difficult_marks(agent) as u32).div_ceil(bundles);
    let all: u32 = sheet.costs(agent).sum();
    let average = (all / sheet.easy).div_ceil(bundles);
    (difficult * sheet.difficult).max(average * sheet.easy)
}

/// One sheet of any size: no partition does better, and no bundle that is dealt
/// costs more.
fn assert_least(sheet: &[u8]) {
    let measures = measures(sheet).unwrap();
    let parsed = Sheet::parse(sheet).unwrap();
    assert_eq!(measures.len(), parsed.agents);
    for (agent, measure) in measures.into_iter().enumerate() {
        assert_eq!(measure, bound(&parsed, agent), "{agent} {sheet:?}");
        let costs = costs(sheet, agent);
        let dealt = bundle_costs(&costs, &dealt(&costs, parsed.agents));
        assert!(dealt.iter().all(|&cost| cost <= measure), "{sheet:?}");
    }
}

#[test]
fn sheets_of_any_size() {
    let mut random = Random::new(92);
    let mut tried = 0;
    for round in 0..3_000 {
        let (agents, chores) = match round % 3 {
            0 => random.size(),
            _ => (1 + random.below(5), random.below(8)),
        };
        let (easy, difficult) = random.factored();
        let sheet = compose::sheet(easy, difficult, &random.rows(agents, chores));
        assert_least(&sheet);
        tried += usize::from(can_try_all(&Sheet::parse(&sheet).unwrap()));
    }
    assert!((1_000..2_500).contains(&tried), "{tried}");
}

#[test]
fn the_largest_sheets() {
    let mut random = Random::new(93);
    for _ in 0..5 {
        let (easy, difficult) = random.factored();
        let rows = random.rows(MAX_AGENTS, MAX_CHORES);
        assert_least(&compose::sheet(easy, difficult, &rows));
    }
}

#[test]
fn few_partitions_are_tried() {
    for (agents, chores, tried) in [
        (1, MAX_CHORES, true),
        (2, 12, true),
        (2, 13, false),
        (4, 6, true),
        (5, 6, false),
        (32, 2, true),
        (32, 3, false),
        (32, MAX_CHORES, false),
    ] {
        let sheet = compose::sheet(1, 2, &vec!["e".repeat(chores); agents]);
        assert_eq!(can_try_all(&Sheet::parse(&sheet).unwrap()), tried);
    }
}
