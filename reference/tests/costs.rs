//! The cost of a mark: by arithmetic, and by the table that the slow checks use.

mod common;

use common::Random;
use reference::compose;
use reference::costs::Costs;
use reference::limits::MAX_WEIGHT;
use reference::sheet::Sheet;

#[test]
fn the_cost_of_either_mark_at_any_weights() {
    for difficult in 2..=MAX_WEIGHT {
        for easy in 1..difficult {
            let bytes = compose::sheet(easy as u16, difficult as u16, &["ed"]);
            let sheet = Sheet::parse(&bytes).unwrap();
            assert_eq!(sheet.cost(0, 0), easy);
            assert_eq!(sheet.cost(0, 1), difficult);
        }
    }
}

#[test]
fn the_costs_of_any_sheet() {
    let mut random = Random::new(51);
    for _ in 0..1_000 {
        let (agents, chores) = random.size();
        let bytes = random.sheet(agents, chores);
        let sheet = Sheet::parse(&bytes).unwrap();
        let table = Costs::as_marked(&sheet);
        for agent in 0..agents {
            let row: Vec<u32> = sheet.costs(agent).collect();
            assert_eq!(row.len(), chores);
            for (chore, &cost) in row.iter().enumerate() {
                assert_eq!(u64::from(cost), table.of(agent, chore));
                assert_eq!(cost, sheet.cost(agent, chore));
            }
        }
    }
}
