//! Reads what `shares` or `why` prints for the book of a text. Both print the
//! same but for what they tell of a sheet that is shared out.

use crate::forms::{parse, unlike, Lines};
use crate::lines::{Fault, Line};
use crate::refusal::{self, Refusal};
use crate::sheet::Sheet;

/// Moves and price cuts, of a sheet or of a book.
#[derive(Debug, Clone, Copy, Default, PartialEq, Eq)]
pub struct Tally {
    pub moves: u64,
    pub cuts: u64,
}

/// What a program tells of a sheet that is shared out, after its tally.
pub trait Told: Sized {
    /// Why the program refused a sheet; none for a number that it refuses no
    /// sheet with.
    fn refusal(number: u8) -> Option<Refusal>;

    fn read(lines: &mut Lines, sheet: &Sheet, tally: Tally) -> Result<Self, Fault>;
}

#[derive(Debug, Clone, PartialEq, Eq)]
pub enum SheetResult<T> {
    Refused(Refusal),
    Shared { tally: Tally, told: T },
}

#[derive(Debug, Clone, PartialEq, Eq)]
pub enum BookResult<T> {
    Refused(Refusal),
    Shared {
        sheets: Vec<SheetResult<T>>,
        total: Tally,
    },
}

/// The result for these sheets, or the first line that does not fit them.
pub fn read<T: Told>(bytes: &[u8], sheets: &[Sheet]) -> Result<BookResult<T>, Fault> {
    let mut lines = Lines::new(bytes)?;
    let result = match lines.peek() {
        ["book", ..] => refused_book(&mut lines)?,
        _ => shared_book(&mut lines, sheets)?,
    };
    lines.end()?;
    Ok(result)
}

fn refused_book<T>(lines: &mut Lines) -> Result<BookResult<T>, Fault> {
    let form = "`book refused R`";
    let line = lines.next(form)?;
    let ["book", "refused", word] = line.words[..] else {
        return Err(unlike(&line, form));
    };
    let refusal = parse(word).and_then(refusal::of_book);
    let reason = || format!("no book is refused with `{word}`");
    let refusal = refusal.ok_or_else(|| Fault::new(line.number, reason()))?;
    Ok(BookResult::Refused(refusal))
}

fn shared_book<T: Told>(lines: &mut Lines, sheets: &[Sheet]) -> Result<BookResult<T>, Fault> {
    let mut results = Vec::with_capacity(sheets.len());
    let mut sum = Tally::default();
    for (sheet, number) in sheets.iter().zip(1..) {
        let result = sheet_result(lines, number, sheet)?;
        if let SheetResult::Shared { tally, .. } = &result {
            sum.moves = sum.moves.saturating_add(tally.moves);
            sum.cuts = sum.cuts.saturating_add(tally.cuts);
        }
        results.push(result);
    }
    total(lines, sum)?;
    Ok(BookResult::Shared {
        sheets: results,
        total: sum,
    })
}

/// The line of totals, which must agree with the sheets' sum.
fn total(lines: &mut Lines, sum: Tally) -> Result<(), Fault> {
    let form = "`total moves M cuts C`, as the text has no further sheet";
    let line = lines.next(form)?;
    let ["total", "moves", moves, "cuts", cuts] = line.words[..] else {
        return Err(unlike(&line, form));
    };
    if tally(moves, cuts) == Some(sum) {
        return Ok(());
    }
    let Tally { moves, cuts } = sum;
    let form = format!("`total moves {moves} cuts {cuts}`, the sum of the sheets");
    Err(unlike(&line, &form))
}

/// The one line of a refused sheet, or all of a shared one.
fn sheet_result<T: Told>(
    lines: &mut Lines,
    number: usize,
    sheet: &Sheet,
) -> Result<SheetResult<T>, Fault> {
    let form = format!("`sheet {number} moves M cuts C` or `sheet {number} refused R`");
    let line = lines.next(&form)?;
    let wrong = || unlike(&line, &form);
    let rest = match &line.words[..] {
        ["sheet", word, rest @ ..] if parse(word) == Some(number) => rest,
        _ => return Err(wrong()),
    };
    match *rest {
        ["refused", word] => refused_sheet(&line, word),
        ["moves", moves, "cuts", cuts] => {
            let tally = tally(moves, cuts).ok_or_else(wrong)?;
            let told = T::read(lines, sheet, tally)?;
            Ok(SheetResult::Shared { tally, told })
        }
        _ => Err(wrong()),
    }
}

fn refused_sheet<T: Told>(line: &Line, word: &str) -> Result<SheetResult<T>, Fault> {
    let refusal = parse(word).and_then(T::refusal);
    let reason = || format!("no sheet is refused with `{word}`");
    let refusal = refusal.ok_or_else(|| Fault::new(line.number, reason()))?;
    Ok(SheetResult::Refused(refusal))
}

fn tally(moves: &str, cuts: &str) -> Option<Tally> {
    Some(Tally {
        moves: parse(moves)?,
        cuts: parse(cuts)?,
    })
}
