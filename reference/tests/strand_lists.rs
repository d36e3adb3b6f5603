//! Lists on a joined sheet and their parts: waste carries over to the whole,
//! evenness to neither side. Rows are judged on the joined sheet.

mod common;

use common::{all_lists, b, c, d, e, every_rows, owner_bytes, share, Random};
use reference::costs::Costs;
use reference::fairness::{dominates, first_dominating, first_unfair_pair};
use reference::sheet::Sheet;
use reference::{compose, join, waste, Join};

fn joined(first: &[u8], second: &[u8]) -> Vec<u8> {
    let mut sheet = vec![0; first.len() + second.len()];
    match join(first, second, &mut sheet) {
        Join::Refused(number) => panic!("refused {number}: {first:?} {second:?}"),
        Join::Joined { written } => sheet.truncate(written),
    }
    sheet
}

fn as_marked(sheet: &[u8]) -> Costs {
    Costs::as_marked(&Sheet::parse(sheet).unwrap())
}

fn is_even(costs: &Costs, owner: &[usize]) -> bool {
    first_unfair_pair(costs, owner, 1).is_none()
}

/// Two strands, and their joined sheet.
struct Desk {
    first: Costs,
    second: Costs,
    joined: Costs,
}

impl Desk {
    fn new(first: &[u8], second: &[u8]) -> Self {
        Desk {
            first: as_marked(first),
            second: as_marked(second),
            joined: as_marked(&joined(first, second)),
        }
    }

    /// Every pair of sheets of these sizes.
    fn all(weights: (u16, u16), agents: usize, one: usize, other: usize) -> Vec<Self> {
        let sheets = |chores| {
            let sheet = |rows: Vec<String>| compose::sheet(weights.0, weights.1, &rows);
            every_rows(agents, chores).map(sheet)
        };
        let desks = |first: Vec<u8>| sheets(other).map(move |second| Desk::new(&first, &second));
        sheets(one).flat_map(desks).collect()
    }

    /// The parts of a list, each with its own sheet.
    fn parts<'a>(&'a self, owner: &'a [usize]) -> [(&'a Costs, &'a [usize]); 2] {
        let (before, after) = owner.split_at(self.first.chores);
        [(&self.first, before), (&self.second, after)]
    }

    /// Lists that dominate the parts, each with the other part as it was.
    fn better_by_a_part(&self, owner: &[usize]) -> Vec<Vec<usize>> {
        let [before, after] = self.parts(owner);
        let better = |(costs, part)| first_dominating(costs, part);
        let first = better(before).map(|part| [&part, after.1].concat());
        let second = better(after).map(|part| [before.1, &part].concat());
        first.into_iter().chain(second).collect()
    }
}

/// How many lists have a wasteful part, and how many are not wasteful.
fn judge_all(weights: (u16, u16), agents: usize, one: usize, other: usize) -> [usize; 2] {
    let lists = all_lists(agents, one + other);
    let (mut with_waste, mut without) = (0, 0);
    for desk in Desk::all(weights, agents, one, other) {
        for owner in &lists {
            let better = desk.better_by_a_part(owner);
            let wasteful = first_dominating(&desk.joined, owner).is_some();
            assert!(wasteful || better.is_empty(), "{:?} {owner:?}", desk.joined);
            // And this is why: the other strand's costs are as they were.
            for other in &better {
                assert!(dominates(&desk.joined, other, owner));
            }
            with_waste += usize::from(!better.is_empty());
            without += usize::from(!wasteful);
        }
    }
    [with_waste, without]
}

#[test]
fn no_part_of_a_list_without_waste_is_wasteful() {
    for weights in [(1, 3), (2, 3)] {
        for (agents, one, other) in [(2, 2, 1), (2, 2, 2), (2, 3, 2), (3, 2, 1), (3, 1, 2)] {
            let seen = judge_all(weights, agents, one, other);
            assert!(seen.iter().all(|&count| count > 50), "{seen:?}");
        }
        // No list of one chore is wasteful, and none of no chores.
        for (agents, one, other) in [(2, 0, 1), (2, 1, 1), (3, 1, 1), (4, 1, 1)] {
            let [with_waste, without] = judge_all(weights, agents, one, other);
            assert!(with_waste == 0 && without > 0);
        }
        for (agents, one, other) in [(2, 0, 2), (2, 3, 0)] {
            let seen = judge_all(weights, agents, one, other);
            assert!(seen.iter().all(|&count| count > 5), "{seen:?}");
        }
    }
}

/// Whether a list is wasteful, on a sheet of any size.
fn is_wasteful(sheet: &[u8], owners: &[u8]) -> bool {
    let owner: Vec<u8> = owners.iter().map(|number| number - 1).collect();
    waste::dominating(&Sheet::parse(sheet).unwrap(), &owner).is_some()
}

#[test]
fn no_part_of_a_share_out_is_wasteful() {
    let mut random = Random::new(62);
    let mut cut = 0;
    for _ in 0..400 {
        let (agents, chores) = random.size();
        let of_first = random.below(chores + 1);
        let rows = random.rows(agents, chores);
        let (easy, difficult) = random.weights();
        let part = |from: usize, to: usize| {
            let rows: Vec<&str> = rows.iter().map(|row| &row[from..to]).collect();
            compose::sheet(easy, difficult, &rows)
        };
        let (first, second) = (part(0, of_first), part(of_first, chores));
        let whole = joined(&first, &second);
        assert_eq!(whole, part(0, chores));
        let (owners, _, _, cuts) = share(&whole).unwrap();
        assert!(!is_wasteful(&whole, &owners));
        assert!(!is_wasteful(&first, &owners[..of_first]));
        assert!(!is_wasteful(&second, &owners[of_first..]));
        cut += usize::from(cuts > 0);
    }
    assert!(cut > 50, "{cut}");
}

#[test]
fn parts_without_waste_may_make_a_wasteful_list() {
    // Sheet E, with its wasteful list.
    let first = compose::sheet(1, 2, &["e", "d"]);
    let second = compose::sheet(1, 2, &["d", "e"]);
    assert_eq!(joined(&first, &second), e());
    assert!(is_wasteful(&e(), &[2, 1]));
    assert!(!is_wasteful(&first, &[2]) && !is_wasteful(&second, &[1]));
}

#[test]
fn evenness_carries_over_to_neither_side() {
    let lists = all_lists(2, 4);
    let (mut uneven_part, mut uneven_whole) = (0, 0);
    for desk in Desk::all((1, 3), 2, 2, 2) {
        for owner in &lists {
            let even = is_even(&desk.joined, owner);
            let parts = desk.parts(owner).map(|(costs, part)| is_even(costs, part));
            uneven_part += usize::from(even && parts != [true; 2]);
            uneven_whole += usize::from(!even && parts == [true; 2]);
        }
    }
    assert!(uneven_part > 100, "{uneven_part}");
    assert!(uneven_whole > 100, "{uneven_whole}");
}

#[test]
fn a_part_of_a_share_out_may_be_uneven() {
    // Sheet D, whose owners are 2 1 1.
    let desk = Desk::new(
        &compose::sheet(1, 2, &["e", "e"]),
        &compose::sheet(1, 2, &["ee", "ee"]),
    );
    let owner = [1, 0, 0];
    assert_eq!(share(&d()).unwrap().0, owner_bytes(&owner));
    assert!(is_even(&desk.joined, &owner));
    let [before, after] = desk.parts(&owner);
    assert!(is_even(before.0, before.1));
    assert_eq!(first_unfair_pair(after.0, after.1, 1), Some((0, 1)));
}

#[test]
fn a_row_is_judged_on_the_joined_sheet() {
    let half = compose::sheet(1, 3, &["ee", "dd"]);
    let liked = compose::sheet(1, 3, &["e", "e"]);
    // Difficult in both strands, so read as easy: sheet B, and all at 3.
    assert_eq!(joined(&half, &half), b());
    let all_at_3 = (vec![2, 2, 1, 1], vec![3; 4], 2, 0);
    assert_eq!(share(&b()), Ok(all_at_3));
    // Difficult in one strand only, so read as marked: sheet C, with a cut.
    let with_a_cut = (vec![2, 2, 1, 1, 2], vec![3, 3, 3, 3, 1], 3, 1);
    assert_eq!(joined(&b(), &liked), c());
    assert_eq!(share(&c()), Ok(with_a_cut));
    // The other way round.
    let with_a_cut = (vec![2, 2, 2, 1, 1], vec![1, 3, 3, 3, 3], 3, 1);
    assert_eq!(share(&joined(&liked, &b())), Ok(with_a_cut));
    // Had the row been read as easy there, no price would be cut.
    let read_apart = compose::sheet(1, 3, &["eeeee", "eeeee"]);
    assert_eq!(share(&read_apart).unwrap().3, 0);
}
