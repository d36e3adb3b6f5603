//! The opening list: worked sheets, ties, the reading, and its cost.

mod common;

use common::{a, all_lists, b, c, d, e, f, g, share, Random};
use reference::algorithm;
use reference::compose;
use reference::costs::Costs;
use reference::share_out::opening;
use reference::sheet::Sheet;

fn opening_of(sheet: &[u8]) -> Vec<u8> {
    opening(&Sheet::parse(sheet).unwrap())
}

/// With weights 1 and 3.
fn opening_of_rows(rows: &[&str]) -> Vec<u8> {
    opening_of(&compose::sheet(1, 3, rows))
}

#[test]
fn lettered_sheets() {
    let table: [(Vec<u8>, &[u8]); 7] = [
        (a(), &[]),
        (b(), &[1, 1, 1, 1]),
        (c(), &[1, 1, 1, 1, 1]),
        (d(), &[1, 1, 1]),
        (e(), &[1, 2]),
        (f(), &[1, 1]),
        (g(), &[1, 1, 1, 2, 3]),
    ];
    for (sheet, owners) in table {
        assert_eq!(opening_of(&sheet), owners, "{sheet:?}");
    }
}

/// Rows with their opening, and with their owners, prices, moves and cuts.
type Row = (
    &'static [&'static str],
    &'static [u8],
    (&'static [u8], &'static [u32], u64, u8),
);

#[test]
fn worked_sheets() {
    let table: [Row; 3] = [
        // Three chores for nobody, and three agents.
        (
            &["ddded", "dddde", "dddee"],
            &[1, 2, 3, 1, 2],
            (&[1, 2, 3, 1, 2], &[9, 9, 9, 3, 3], 0, 0),
        ),
        // Chore 1 counts for agent 1, though it is easy.
        (&["edd", "dde"], &[1, 2, 2], (&[1, 2, 2], &[3, 9, 3], 0, 0)),
        // Before chore 4, agent 1 holds two chores at 6 and agent 2 one at 9.
        (
            &["eedd", "eddd"],
            &[1, 1, 2, 2],
            (&[1, 1, 1, 2], &[3, 3, 9, 9], 1, 0),
        ),
    ];
    for (rows, open, (owners, prices, moves, cuts)) in table {
        assert_eq!(opening_of_rows(rows), open, "{rows:?}");
        let expected = (owners.to_vec(), prices.to_vec(), moves, cuts);
        assert_eq!(share(&compose::sheet(1, 3, rows)), Ok(expected), "{rows:?}");
    }
}

#[test]
fn a_chore_that_somebody_likes_goes_by_number_not_by_count() {
    assert_eq!(opening_of_rows(&["eee", "eee"]), [1, 1, 1]);
    assert_eq!(opening_of_rows(&["dde", "eed", "eee"]), [2, 2, 1]);
    // Agent 3, who holds none, likes chore 3 too.
    assert_eq!(opening_of_rows(&["eded", "dedd", "ddee"]), [1, 2, 1, 3]);
}

#[test]
fn a_tie_goes_to_the_lowest_number() {
    assert_eq!(opening_of_rows(&["dddde", "dddde"]), [1, 2, 1, 2, 1]);
    let owners = opening_of_rows(&["ddddddde"; 3]);
    assert_eq!(owners, [1, 2, 3, 1, 2, 3, 1, 1]);
    // Chore 2: between agents 2 and 3, and between agents 1 and 3.
    assert_eq!(opening_of_rows(&["eddd", "eddd", "eddd"]), [1, 2, 3, 1]);
    assert_eq!(opening_of_rows(&["ddde", "eddd", "eddd"]), [2, 1, 3, 1]);
}

#[test]
fn chores_not_yet_opened_do_not_count() {
    // Chores 3 and 4 go to agent 1, but only after chores 1 and 2.
    assert_eq!(opening_of_rows(&["ddee", "ddde"]), [1, 2, 1, 1]);
    assert_eq!(opening_of_rows(&["ddde", "ddee"]), [1, 2, 2, 1]);
}

#[test]
fn a_row_of_difficult_marks_is_read_as_easy_first() {
    // So that agent finds easy what nobody marked easy.
    assert_eq!(opening_of_rows(&["ddd"]), [1, 1, 1]);
    assert_eq!(opening_of_rows(&["ddde", "dddd"]), [2, 2, 2, 1]);
    assert_eq!(opening_of_rows(&["ddde", "dddd", "dddd"]), [2, 2, 2, 1]);
    let sheet = compose::sheet(1, 3, &["ddde", "dddd"]);
    let (_, prices) = algorithm::opening(&as_read(&sheet));
    assert_eq!(prices, [3; 4]);
}

fn as_read(sheet: &[u8]) -> Costs {
    Costs::as_read(&Sheet::parse(sheet).unwrap())
}

fn total(costs: &Costs, owner: &[usize]) -> u64 {
    let chores = owner.iter().enumerate();
    chores.map(|(chore, &agent)| costs.of(agent, chore)).sum()
}

/// How many chores nobody finds easy.
fn chores_for_nobody(costs: &Costs) -> usize {
    let for_nobody = |&r: &usize| (0..costs.agents).all(|i| costs.of(i, r) == costs.difficult);
    (0..costs.chores).filter(for_nobody).count()
}

#[test]
fn no_list_costs_less_in_total() {
    let mut random = Random::new(33);
    let mut with_some = 0;
    for _ in 0..3_000 {
        let (agents, chores) = (1 + random.below(3), random.below(6));
        let sheet = random.sheet(agents, chores);
        let costs = as_read(&sheet);
        let (owner, _) = algorithm::opening(&costs);
        let lists = all_lists(agents, chores);
        assert_eq!(lists.len(), agents.pow(chores as u32));
        let least = lists.iter().map(|list| total(&costs, list)).min();
        assert_eq!(Some(total(&costs, &owner)), least, "{sheet:?}");
        with_some += usize::from(chores_for_nobody(&costs) > 1);
    }
    assert!(with_some > 500, "{with_some}");
}
