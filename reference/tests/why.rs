//! What `why` prints.

mod common;

use common::{a, b, c, d, Random};
use reference::compose;
use reference::output::shares;
use reference::why::{why, why_lending};

const OF_C: &str = "sheet 1 moves 3 cuts 1\n\
                    opening 1 1 1 1 1\n\
                    reel 5 from 1 to 2 round 1 step 2\n\
                    reel 1 from 1 to 2 round 2 step 2\n\
                    reel 2 from 1 to 2 round 2 step 2\n\
                    owners 2 2 1 1 2\n\
                    prices 3 3 3 3 1\n\
                    total moves 3 cuts 1\n";

#[test]
fn sheet_c() {
    assert_eq!(why(&compose::book(&[c()])), OF_C);
}

#[test]
fn chores_that_nobody_likes() {
    let sheet = compose::sheet(1, 3, &["eedd", "eddd"]);
    let print = "sheet 1 moves 1 cuts 0\n\
                 opening 1 1 2 2\n\
                 reel 3 from 2 to 1 round 1 step 2\n\
                 owners 1 1 1 2\n\
                 prices 3 3 9 9\n\
                 total moves 1 cuts 0\n";
    assert_eq!(why(&compose::book(&[sheet])), print);
}

#[test]
fn a_move_of_step_2a() {
    let sheet = compose::sheet(1, 3, &["deddddddd", "ddddddddd", "ddeddddde"]);
    let print = "sheet 1 moves 7 cuts 2\n\
                 opening 2 1 2 2 2 2 2 2 2\n\
                 reel 3 from 2 to 3 round 1 step 2\n\
                 reel 9 from 2 to 3 round 1 step 2\n\
                 reel 1 from 2 to 1 round 2 step 2\n\
                 reel 4 from 2 to 1 round 2 step 2\n\
                 reel 1 from 1 to 3 round 3 step 1\n\
                 reel 5 from 2 to 1 round 3 step 2\n\
                 reel 6 from 2 to 3 round 3 step 2\n\
                 owners 3 1 3 1 1 3 2 2 3\n\
                 prices 3 1 1 3 3 3 3 3 1\n\
                 total moves 7 cuts 2\n";
    assert_eq!(why(&compose::book(&[sheet])), print);
}

#[test]
fn accepted_and_refused_sheets() {
    let mut bit_set = b();
    bit_set[7] |= 1;
    let print = "sheet 1 moves 0 cuts 0\nopening\nowners\nprices\n\
                 sheet 2 refused 4\n\
                 sheet 3 moves 1 cuts 0\nopening 1 1 1\n\
                 reel 1 from 1 to 2 round 1 step 2\n\
                 owners 2 1 1\nprices 2 2 2\n\
                 sheet 4 refused 5\n\
                 total moves 1 cuts 0\n";
    let bodies = [a(), bit_set, d(), vec![]];
    assert_eq!(why(&compose::book(&bodies)), print);
    for bytes in [&[][..], &[0], &[255; 2_000], &[0; 65_536]] {
        assert_eq!(why(bytes), "book refused 9\n");
    }
}

#[test]
fn moves_that_do_not_fit() {
    let book = compose::book(&[c(), d()]);
    let print = "sheet 1 refused 11\n\
                 sheet 2 moves 1 cuts 0\nopening 1 1 1\n\
                 reel 1 from 1 to 2 round 1 step 2\n\
                 owners 2 1 1\nprices 2 2 2\n\
                 total moves 1 cuts 0\n";
    assert_eq!(why_lending(17, &book), print);
    assert_eq!(why_lending(18, &book), why(&book));
    let none = "sheet 1 refused 11\nsheet 2 refused 11\ntotal moves 0 cuts 0\n";
    assert_eq!(why_lending(5, &book), none);
}

/// The lines that `shares` does not print.
fn is_of_why(line: &&str) -> bool {
    line.starts_with("opening") || line.starts_with("reel")
}

#[test]
fn the_rest_is_what_shares_prints() {
    let mut random = Random::new(32);
    for _ in 0..300 {
        let mut body = || {
            let (agents, chores) = (1 + random.below(6), random.below(20));
            let mut sheet = random.sheet(agents, chores);
            sheet.truncate(sheet.len() - usize::from(random.below(8) == 0));
            sheet
        };
        let bodies: Vec<Vec<u8>> = (0..16).map(|_| body()).collect();
        let book = compose::book(&bodies);
        let print = why(&book);
        let rest: Vec<&str> = print.lines().filter(|line| !is_of_why(line)).collect();
        assert_eq!(rest.join("\n") + "\n", shares(&book));
    }
}
