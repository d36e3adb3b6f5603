//! Prints the result of `shares` with names, agent by agent.

use crate::lists::Lists;
use crate::print::{self, counted};
use crate::result::BookResult;
use crate::sheet::Sheet;

pub fn print(sheets: &[Sheet], result: &BookResult<Lists>) -> String {
    print::print(sheets, result, |sheet, lists| {
        let agents = 0..sheet.agents.len();
        agents.map(|agent| bundle(sheet, agent, lists)).collect()
    })
}

/// One agent's chores, each with the agent's mark and its price.
fn bundle(sheet: &Sheet, agent: usize, lists: &Lists) -> String {
    let Lists { owners, prices } = lists;
    let held: Vec<usize> = (0..owners.len())
        .filter(|&chore| owners[chore] == agent)
        .collect();
    let agent = &sheet.agents[agent];
    if held.is_empty() {
        return format!("  {}: no reels\n", agent.name);
    }
    let sum: u64 = held.iter().map(|&chore| u64::from(prices[chore])).sum();
    let reels = counted(held.len() as u64, "reel");
    let mut print = format!("  {}: {reels}, price {sum}\n", agent.name);
    for chore in held {
        let (title, mark) = (&sheet.chores[chore], agent.marks[chore].word());
        print += &format!("    {title} ({mark}, price {})\n", prices[chore]);
    }
    print
}
