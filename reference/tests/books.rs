//! Books: contents, lookup, whole books, and the print.

mod common;

use common::{a, as_bytes, b, c, chores_of, e, share, Random};
use reference::limits::{BOOK_ENTRIES, MIN_SCRATCH};
use reference::output::{line, shares};
use reference::{allocate_book, compose, lookup, plain, price_bytes};
use reference::{BookShareOut, SheetShareOut, Tally};

/// A book's share-out, and whether all that was lent kept its content.
fn share_book(book: &[u8], lengths: [usize; 3]) -> (BookShareOut, bool) {
    let mut owners = vec![77; lengths[0]];
    let mut prices = vec![78; lengths[1]];
    let mut scratch = vec![79; lengths[2]];
    let answer = allocate_book(book, &mut owners, &mut prices, &mut scratch);
    let kept = owners.iter().all(|&entry| entry == 77)
        && prices.iter().all(|&entry| entry == 78)
        && scratch.iter().all(|&entry| entry == 79);
    (answer, kept)
}

const ENOUGH: [usize; 3] = [BOOK_ENTRIES, BOOK_ENTRIES, MIN_SCRATCH];

/// Refused with 9 by every call on books.
fn assert_no_book(book: &[u8]) {
    assert_eq!(lookup(book, 1), Err(9));
    assert_eq!(share_book(book, ENOUGH), (BookShareOut::Refused(9), true));
    assert_eq!(
        share_book(book, [0, 0, 0]),
        (BookShareOut::Refused(9), true)
    );
    assert_eq!(shares(book), "book refused 9\n");
}

#[test]
fn counts_of_sheets() {
    assert_no_book(&[]);
    assert_no_book(&[0]);
    assert_no_book(&[1]);
    assert!(lookup(&compose::book(&vec![e(); 16]), 16).is_ok());
    assert_no_book(&compose::book(&vec![e(); 17]));
    let none: [Vec<u8>; 0] = [];
    assert_no_book(&compose::book(&none));
    assert_no_book(&[255; 2_000]);
}

#[test]
fn contents_against_the_rule() {
    let book = compose::book(&[b(), c()]);
    assert!(lookup(&book, 1).is_ok());
    // Any other start or length leaves a gap, an overlap or a wrong end.
    for place in 1..9 {
        for byte in 0..=255 {
            let mut changed = book.clone();
            changed[place] = byte;
            if changed != book {
                assert_no_book(&changed);
            }
        }
    }
    for length in 0..book.len() {
        assert_no_book(&book[..length]);
    }
    assert_no_book(&[&book[..], &[0]].concat());
}

#[test]
fn entries_out_of_order() {
    let book = compose::book(&[b(), c()]);
    let mut swapped = book.clone();
    swapped[1..5].copy_from_slice(&book[5..9]);
    swapped[5..9].copy_from_slice(&book[1..5]);
    assert_no_book(&swapped);
}

#[test]
fn length_of_a_book() {
    let longest = compose::book(&[vec![1; 65_530]]);
    assert_eq!(longest.len(), 65_535);
    assert_eq!(lookup(&longest, 1).map(<[u8]>::len), Ok(65_530));
    // 257 chores, and both weights 257.
    assert_eq!(
        shares(&longest),
        "sheet 1 refused 3\ntotal moves 0 cuts 0\n"
    );
    let mut longer = compose::book(&[vec![1; 65_531]]);
    assert_no_book(&longer);
    longer.truncate(65_535);
    assert_no_book(&longer);
}

#[test]
fn lookup_hands_back_a_stretch_of_the_book() {
    let bodies = [b(), vec![], b"no sheet".to_vec(), c()];
    let book = compose::book(&bodies);
    let mut start = 17;
    for (index, body) in bodies.iter().enumerate() {
        let found = lookup(&book, index + 1).unwrap();
        assert_eq!(found, &body[..]);
        assert_eq!(found.as_ptr(), book[start..].as_ptr());
        start += body.len();
    }
    assert_eq!(lookup(&book, 0), Err(9));
    assert_eq!(lookup(&book, 5), Err(9));
    assert_eq!(lookup(&book, 257), Err(9));
}

#[test]
fn lent_lists_of_a_book() {
    let book = compose::book(&[a()]);
    assert!(!share_book(&book, ENOUGH).1);
    for lent in 0..3 {
        let mut lengths = ENOUGH;
        lengths[lent] -= 1;
        assert_eq!(share_book(&book, lengths), (BookShareOut::Refused(8), true));
    }
}

#[test]
fn refused_sheets_take_no_entries() {
    let bodies = [vec![], b(), vec![0; 7], a(), c(), b"short".to_vec(), e()];
    let book = compose::book(&bodies);
    let mut owners = vec![77; BOOK_ENTRIES + 5];
    let mut prices = vec![78; BOOK_ENTRIES + 2];
    let mut scratch = vec![79; MIN_SCRATCH + 1];
    let answer = allocate_book(&book, &mut owners, &mut prices, &mut scratch);
    let shared = |moves, cuts, first| SheetShareOut::Shared { moves, cuts, first };
    let sheets = vec![
        SheetShareOut::Refused(5),
        shared(2, 0, 0),
        SheetShareOut::Refused(1),
        shared(0, 0, 4),
        shared(3, 1, 4),
        SheetShareOut::Refused(5),
        shared(0, 0, 9),
    ];
    let total = Tally { moves: 5, cuts: 1 };
    assert_eq!(answer, BookShareOut::Shared { sheets, total });
    assert_eq!(owners[..11], [2, 2, 1, 1, 2, 2, 1, 1, 2, 1, 2]);
    assert_eq!(prices[..11], [3, 3, 3, 3, 3, 3, 3, 3, 1, 2, 2]);
    assert!(owners[11..].iter().all(|&entry| entry == 77));
    assert!(prices[11..].iter().all(|&entry| entry == 78));
    assert!(scratch.iter().all(|&entry| entry == 0));
}

#[test]
fn a_book_of_refused_sheets_clears_the_scratch() {
    let book = compose::book(&[vec![], vec![33; 7]]);
    let mut owners = vec![77; BOOK_ENTRIES];
    let mut prices = vec![78; BOOK_ENTRIES];
    let mut scratch = vec![79; MIN_SCRATCH];
    let answer = allocate_book(&book, &mut owners, &mut prices, &mut scratch);
    let sheets = vec![SheetShareOut::Refused(5), SheetShareOut::Refused(1)];
    let total = Tally::default();
    assert_eq!(answer, BookShareOut::Shared { sheets, total });
    assert!(owners.iter().all(|&entry| entry == 77));
    assert!(prices.iter().all(|&entry| entry == 78));
    assert!(scratch.iter().all(|&entry| entry == 0));
}

#[test]
fn a_full_book_fills_the_lists() {
    let sheet = Random::new(13).sheet(3, 4_000);
    let book = compose::book(&vec![sheet.clone(); 16]);
    let mut owners = vec![0; BOOK_ENTRIES];
    let mut prices = vec![0; BOOK_ENTRIES];
    let mut scratch = vec![0; MIN_SCRATCH];
    let answer = allocate_book(&book, &mut owners, &mut prices, &mut scratch);
    let (alone, alone_prices, moves, cuts) = share(&sheet).unwrap();
    assert_eq!(owners, alone.repeat(16));
    assert_eq!(prices, alone_prices.repeat(16));
    let shared = |index: usize| SheetShareOut::Shared {
        moves,
        cuts,
        first: 4_000 * index,
    };
    let sheets = (0..16).map(shared).collect();
    let total = Tally {
        moves: 16 * moves,
        cuts: 16 * u64::from(cuts),
    };
    assert_eq!(answer, BookShareOut::Shared { sheets, total });
}

/// What `shares` prints, put together out of a book's share-out.
fn print_of(book: &[u8]) -> String {
    let mut owners = vec![0; BOOK_ENTRIES];
    let mut prices = vec![0; BOOK_ENTRIES];
    let mut scratch = vec![0; MIN_SCRATCH];
    let answer = allocate_book(book, &mut owners, &mut prices, &mut scratch);
    let BookShareOut::Shared { sheets, total } = answer else {
        panic!("{answer:?}")
    };
    let mut print = String::new();
    for (sheet, number) in sheets.iter().zip(1..) {
        print += &match *sheet {
            SheetShareOut::Refused(refusal) => format!("sheet {number} refused {refusal}\n"),
            SheetShareOut::Shared { moves, cuts, first } => {
                let end = first + chores_of(lookup(book, number).unwrap());
                [
                    format!("sheet {number} moves {moves} cuts {cuts}\n"),
                    line("owners", &owners[first..end]),
                    line("prices", &prices[first..end]),
                ]
                .concat()
            }
        };
    }
    let Tally { moves, cuts } = total;
    print + &format!("total moves {moves} cuts {cuts}\n")
}

/// A small sheet mostly, now and then a byte short. In some rounds a long one.
fn some_body(random: &mut Random, round: usize) -> Vec<u8> {
    let (agents, chores) = match round % 100 {
        0 => (1 + random.below(4), 4_000 - random.below(9)),
        _ => (1 + random.below(6), random.below(20)),
    };
    let mut sheet = random.sheet(agents, chores);
    sheet.truncate(sheet.len() - usize::from(random.below(8) == 0));
    sheet
}

#[test]
fn the_print_sheet_by_sheet_is_that_of_the_book() {
    let mut random = Random::new(14);
    for round in 0..300 {
        let bodies: Vec<Vec<u8>> = (0..16).map(|_| some_body(&mut random, round)).collect();
        let book = compose::book(&bodies);
        assert_eq!(shares(&book), print_of(&book));
    }
}

#[test]
fn prices_as_bytes() {
    let mut random = Random::new(15);
    for round in 0..100 {
        let bodies: Vec<Vec<u8>> = (0..16).map(|_| some_body(&mut random, round)).collect();
        let book = compose::book(&bodies);
        let mut owners = [vec![77; BOOK_ENTRIES], vec![77; BOOK_ENTRIES]];
        let mut prices = vec![0x4e4e_4e4e; BOOK_ENTRIES];
        let mut bytes = vec![0x4e; 4 * BOOK_ENTRIES + 3];
        let mut scratch = [0; MIN_SCRATCH];
        let answer = allocate_book(&book, &mut owners[0], &mut prices, &mut scratch);
        let work = plain::work;
        let of_bytes =
            price_bytes::allocate_book(work, &book, &mut owners[1], &mut bytes, &mut scratch);
        assert_eq!(of_bytes, answer);
        assert_eq!(owners[0], owners[1]);
        assert_eq!(bytes, [&as_bytes(&prices)[..], &[0x4e; 3]].concat());
        // A book that is refused.
        let refused = price_bytes::allocate_book(work, &[], &mut [], &mut bytes, &mut scratch);
        assert_eq!(refused, BookShareOut::Refused(9));
        assert_eq!(bytes, [&as_bytes(&prices)[..], &[0x4e; 3]].concat());
    }
}

#[test]
fn the_print() {
    let of_c = "sheet 1 moves 3 cuts 1\n\
                owners 2 2 1 1 2\n\
                prices 3 3 3 3 1\n\
                total moves 3 cuts 1\n";
    assert_eq!(shares(&compose::book(&[c()])), of_c);
    let mut bit_set = b();
    bit_set[7] |= 1;
    let mixed = "sheet 1 moves 0 cuts 0\nowners\nprices\n\
                 sheet 2 refused 4\n\
                 sheet 3 moves 3 cuts 1\nowners 2 2 1 1 2\nprices 3 3 3 3 1\n\
                 sheet 4 refused 5\n\
                 sheet 5 moves 2 cuts 0\nowners 2 2 1 1\nprices 3 3 3 3\n\
                 total moves 5 cuts 1\n";
    let bodies = [a(), bit_set, c(), vec![], b()];
    assert_eq!(shares(&compose::book(&bodies)), mixed);
}
