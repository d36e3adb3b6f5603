//! Books against the second program: the lookup of each sheet, each sheet's
//! answer, the long lists and the tally, and all lent memory. No book takes more
//! moves than its sheets may.

use compare::comparisons::books::{
    compared, damaged, full, large, whole, with_short_lists, Lists, LEAST,
};
use compare::comparisons::lookups;
use compare::random::Random;
use compare::{shapes, sizes, BOOK_SHEETS};
use reference::limits::{MAX_BOOK_BYTES, MAX_CHORES};
use reference::{compose, lookup, BookShareOut, SheetShareOut};

const WHOLE: usize = 40_000;
const DAMAGED: usize = 40_000;
const SHORT: usize = 19_700;
const LARGE: usize = 300;
const FULL: usize = 9;

/// What became of the sheets of a book that was not refused.
fn sheets_of(answer: BookShareOut) -> Vec<SheetShareOut> {
    match answer {
        BookShareOut::Refused(number) => panic!("refused {number}"),
        BookShareOut::Shared { sheets, .. } => sheets,
    }
}

/// Adds the sheets of a book that were not refused.
fn add_sizes(sizes: &mut sizes::Seen, book: &[u8], sheets: &[SheetShareOut]) {
    for (sheet, number) in sheets.iter().zip(1..) {
        if let SheetShareOut::Shared { .. } = sheet {
            sizes.add(lookup(book, number).expect("a sheet of the book"));
        }
    }
}

#[test]
fn whole_books() {
    let mut random = Random::new(21);
    let mut lists = Lists::new(&mut random);
    let mut sizes = sizes::Seen::default();
    let (mut full, mut mixed) = (0, 0);
    for _ in 0..WHOLE {
        let (book, answer) = whole(&mut random, &mut lists);
        let sheets = sheets_of(answer);
        let refused = |sheet: &SheetShareOut| matches!(sheet, SheetShareOut::Refused(_));
        let count = sheets.iter().filter(|sheet| refused(sheet)).count();
        full += usize::from(sheets.len() == BOOK_SHEETS);
        mixed += usize::from(count > 0 && count < sheets.len());
        add_sizes(&mut sizes, &book, &sheets);
    }
    sizes.assert_all(0..=17, WHOLE / 100);
    assert!(full > WHOLE / 10 && mixed > WHOLE / 10, "{full} {mixed}");
}

#[test]
fn damaged_books() {
    let mut random = Random::new(22);
    let mut lists = Lists::new(&mut random);
    let mut refused = 0;
    for _ in 0..DAMAGED {
        let (_, answer) = damaged(&mut random, &mut lists);
        refused += usize::from(answer == BookShareOut::Refused(9));
    }
    let shared = DAMAGED - refused;
    assert!(refused > DAMAGED / 2 && shared > DAMAGED / 20, "{refused}");
}

#[test]
fn short_lists() {
    let mut random = Random::new(23);
    let mut lists = Lists::new(&mut random);
    let mut refused = 0;
    for _ in 0..SHORT {
        let (_, answer) = with_short_lists(&mut random, &mut lists);
        refused += usize::from(answer == BookShareOut::Refused(8));
    }
    assert!(refused > SHORT / 2 && refused < SHORT, "{refused}");
}

#[test]
fn large_books() {
    let mut random = Random::new(24);
    let mut lists = Lists::new(&mut random);
    for _ in 0..LARGE {
        large(&mut random, &mut lists);
    }
}

/// Sixteen sheets of 4,000 chores, which take every entry, and of a few less.
#[test]
fn full_books() {
    let mut random = Random::new(26);
    let mut lists = Lists::new(&mut random);
    let mut sizes = sizes::Seen::default();
    for round in 0..FULL {
        let (book, answer) = full(&mut random, &mut lists, [0, 7, 7][round % 3]);
        add_sizes(&mut sizes, &book, &sheets_of(answer));
    }
    sizes.assert_all(sizes::LONGEST, 1);
    sizes.assert_all([MAX_CHORES], BOOK_SHEETS * FULL / 3);
}

/// Whole but for their length or their count of sheets.
#[test]
fn books_at_the_limits() {
    let mut random = Random::new(25);
    let mut lists = Lists::new(&mut random);
    let mut all = vec![random.bytes(2 * MAX_BOOK_BYTES)];
    for length in [MAX_BOOK_BYTES - 1, MAX_BOOK_BYTES, MAX_BOOK_BYTES + 1] {
        all.push(compose::book(&[random.bytes(length - 5)]));
        let one = 30_000;
        let other = length - 9 - one;
        all.push(compose::book(&[random.bytes(one), random.bytes(other)]));
    }
    for count in 0..40 {
        let sheets: Vec<Vec<u8>> = (0..count)
            .map(|_| shapes::small_sheet(&mut random))
            .collect();
        all.push(compose::book(&sheets));
    }
    for book in all {
        lookups::compared(&mut random, &book);
        compared(&mut random, &mut lists, &book, LEAST);
    }
}
