//! The share-out of a book: each sheet's answer, the long lists and the tally,
//! and all lent memory. No book takes more moves than its sheets may.

use super::book_answers::Answers;
use super::lookups;
use crate::books::{bodies, book_at_a_limit, damaged_book, full_book, large_book};
use crate::bound::{assert_few, most_moves};
use crate::lent::{enough_scratch, short_scratch, Lengths, Lent, Twins};
use crate::random::Random;
use reference::limits::{BOOK_ENTRIES, MIN_SCRATCH};
use reference::price_bytes::PRICE_BYTES;
use reference::{compose, lookup, plain, price_bytes, BookShareOut, SheetShareOut};

/// What must be lent at least.
pub const LEAST: Lengths = [BOOK_ENTRIES, PRICE_BYTES * BOOK_ENTRIES, MIN_SCRATCH];

/// Both long lists are longer by up to so many bytes.
const MOST_MORE: usize = 40;

/// Long lists that any number of books can be lent, one after the other.
pub struct Lists {
    owners: Twins,
    prices: Twins,
}

impl Lists {
    pub fn new(random: &mut Random) -> Self {
        let [owners, prices, _] = LEAST.map(|length| Twins::new(random, length + MOST_MORE));
        Lists { owners, prices }
    }
}

/// One book through both programs, with every byte that was lent compared.
pub fn compared(
    random: &mut Random,
    lists: &mut Lists,
    book: &[u8],
    lengths: Lengths,
) -> BookShareOut {
    let [expected_owners, owners] = lists.owners.lend(random, lengths[0]);
    let [expected_prices, prices] = lists.prices.lend(random, lengths[1]);
    let mut scratch = Lent::bytes(random, lengths[2]);
    let mut zeros = scratch.at_first().to_vec();
    let work = plain::work;
    let answer =
        price_bytes::allocate_book(work, book, expected_owners, expected_prices, &mut zeros);
    let expected = match answer {
        BookShareOut::Refused(number) => number,
        BookShareOut::Shared { .. } => 0,
    };
    let mut answers = Answers::new(random);
    let number = crate::allocate_book(book, owners, prices, scratch.part(), answers.lend());
    assert_eq!(number, expected, "number of {book:?}, lent {lengths:?}");
    assert!(
        answers.tell(&answer),
        "answers of {book:?}, lent {lengths:?}"
    );
    assert!(lists.owners.agree(), "owners of {book:?}, lent {lengths:?}");
    assert!(lists.prices.agree(), "prices of {book:?}, lent {lengths:?}");
    assert!(
        scratch.holds(&zeros),
        "scratch of {book:?}, lent {lengths:?}"
    );
    assert_few_in_all(book, &answer);
    answer
}

/// The moves of each accepted sheet, and of all together, are no more than they may be.
fn assert_few_in_all(book: &[u8], answer: &BookShareOut) {
    let BookShareOut::Shared { sheets, total } = answer else {
        return;
    };
    let mut most = 0;
    for (sheet, number) in sheets.iter().zip(1..) {
        if let SheetShareOut::Shared { moves, cuts, .. } = *sheet {
            let body = lookup(book, number).expect("a sheet of the book");
            assert_few(body, moves, cuts);
            most += most_moves(body);
        }
    }
    assert!(total.moves <= most, "{total:?} of {book:?}");
}

fn enough(random: &mut Random) -> Lengths {
    let [owners, prices, _] = LEAST.map(|length| length + [0, 0, 1, 5, MOST_MORE][random.below(5)]);
    [owners, prices, enough_scratch(random)]
}

/// One that keeps the rules, though its sheets need not, with enough lent for it.
pub fn whole(random: &mut Random, lists: &mut Lists) -> (Vec<u8>, BookShareOut) {
    let book = compose::book(&bodies(random));
    lookups::compared(random, &book);
    let lengths = enough(random);
    shared_out(random, lists, book, lengths)
}

/// Not refused.
fn shared_out(
    random: &mut Random,
    lists: &mut Lists,
    book: Vec<u8>,
    lengths: Lengths,
) -> (Vec<u8>, BookShareOut) {
    let answer = compared(random, lists, &book, lengths);
    if let BookShareOut::Refused(number) = answer {
        panic!("refused {number}: {book:?}");
    }
    (book, answer)
}

/// One with faults, lent too little now and then.
pub fn damaged(random: &mut Random, lists: &mut Lists) -> (Vec<u8>, BookShareOut) {
    let book = damaged_book(random);
    lookups::compared(random, &book);
    let mut lengths = enough(random);
    // A refused book is refused before short lists are.
    match random.below(20) {
        0 => lengths[random.below(3)] = 0,
        1 => lengths[2] = short_scratch(random),
        _ => {}
    }
    let answer = compared(random, lists, &book, lengths);
    (book, answer)
}

/// One with a short list or short scratch, often too short.
pub fn with_short_lists(random: &mut Random, lists: &mut Lists) -> (Vec<u8>, BookShareOut) {
    let book = compose::book(&bodies(random));
    let mut lengths = enough(random);
    let short = random.below(3);
    lengths[short] = match random.below(4) {
        0 => random.below(LEAST[short]),
        1 => LEAST[short] - 1,
        _ => LEAST[short] + 2 - random.below(6),
    };
    let answer = compared(random, lists, &book, lengths);
    (book, answer)
}

/// One of 16 sheets, of up to 20 agents and 200 chores.
pub fn large(random: &mut Random, lists: &mut Lists) -> (Vec<u8>, BookShareOut) {
    let book = large_book(random);
    lookups::compared(random, &book);
    let lengths = enough(random);
    shared_out(random, lists, book, lengths)
}

/// One of 16 sheets, each of 4,000 chores or of up to so many less, lent no more
/// than it must be.
pub fn full(random: &mut Random, lists: &mut Lists, less: usize) -> (Vec<u8>, BookShareOut) {
    let book = full_book(random, less);
    shared_out(random, lists, book, LEAST)
}

/// One at a limit of a book's bytes or sheets, or past it.
pub fn at_a_limit(random: &mut Random, lists: &mut Lists) -> (Vec<u8>, BookShareOut) {
    let book = book_at_a_limit(random);
    lookups::compared(random, &book);
    let lengths = enough(random);
    let answer = compared(random, lists, &book, lengths);
    (book, answer)
}
