//! What all prints with names have in common.

use crate::result::{BookResult, SheetResult, Tally};
use crate::sheet::Sheet;

/// One block per sheet, then the totals; `told` prints what is told of a sheet
/// that is shared out.
pub fn print<T>(
    sheets: &[Sheet],
    result: &BookResult<T>,
    told: impl Fn(&Sheet, &T) -> String,
) -> String {
    let (results, total) = match result {
        BookResult::Refused(refusal) => return format!("The book was refused {refusal}\n"),
        BookResult::Shared { sheets, total } => (sheets, total),
    };
    let mut print = String::new();
    for ((sheet, result), number) in sheets.iter().zip(results).zip(1..) {
        print += &heading(number, &sheet.title);
        print += &match result {
            SheetResult::Refused(refusal) => format!("  Refused {refusal}\n"),
            SheetResult::Shared { tally, told: lines } => {
                told(sheet, lines) + &format!("  {}\n", in_words(tally))
            }
        };
        print += "\n";
    }
    print + &format!("Total: {}\n", in_words(total))
}

fn heading(number: usize, title: &str) -> String {
    match title {
        "" => format!("Sheet {number}\n"),
        _ => format!("Sheet {number}: {title}\n"),
    }
}

fn in_words(tally: &Tally) -> String {
    let moves = counted(tally.moves, "move");
    let cuts = counted(tally.cuts, "price cut");
    format!("{moves}, {cuts}")
}

pub fn counted(count: u64, word: &str) -> String {
    match count {
        1 => format!("1 {word}"),
        _ => format!("{count} {word}s"),
    }
}
