//! Prints the result of `why` with names, chore by chore.

use crate::moves::{Move, Step};
use crate::print;
use crate::result::BookResult;
use crate::run::Run;
use crate::sheet::Sheet;

pub fn print(sheets: &[Sheet], result: &BookResult<Run>) -> String {
    print::print(sheets, result, |sheet, run| match sheet.chores.len() {
        0 => "  No reels\n".to_string(),
        chores => {
            let hands = hands(sheet, &run.moves);
            (0..chores)
                .map(|chore| history(sheet, chore, run, &hands[chore]))
                .collect()
        }
    })
}

/// The hands that each chore went through.
fn hands(sheet: &Sheet, moves: &[Move]) -> Vec<String> {
    let mut hands = vec![String::new(); sheet.chores.len()];
    for next in moves {
        hands[next.chore] += &hand(&sheet.agents[next.receiver].name, next);
    }
    hands
}

/// Who has the chore, with whom it opened, and the hands it went through.
fn history(sheet: &Sheet, chore: usize, run: &Run, hands: &str) -> String {
    let name = |agent: usize| &sheet.agents[agent].name;
    let (title, owner) = (&sheet.chores[chore], name(run.lists.owners[chore]));
    let opening = format!(
        "  {title}: {owner}\n    opened with {}",
        name(run.opening[chore])
    );
    match hands {
        "" => opening + ", and stayed\n",
        _ => opening + "\n" + hands,
    }
}

fn hand(receiver: &str, next: &Move) -> String {
    // Moves of 2b are the usual ones.
    let reason = match next.step {
        Step::TwoA => ", evening out between groups",
        Step::TwoB => "",
    };
    format!("    to {receiver} in round {}{reason}\n", next.round)
}
