//! Times the proved share-out, both checks, the join and everyone's measure beside
//! a plain C program's and the second program's, and lists that respect the measure
//! beside the second program's. Estimates how long the most moves of a share-out
//! would take, and times what a record adds.

mod checks;
mod columns;
mod joins;
mod measured_lists;
mod measures;
mod most_moves;
mod records;
mod share_outs;
mod sheets;
mod timing;

use compare::random::Random;

fn main() {
    println!(
        "microseconds by sheet: the best of {} runs, or of as many as {} seconds allow, over {}\n\
         sheets, or {} of more than 200 chores; weights 1 and 3\n",
        timing::RUNS,
        timing::TIME.as_secs(),
        sheets::COUNT,
        sheets::COUNT_OF_LONG
    );
    let mut random = Random::new(31);
    share_outs::table(&mut random);
    // Of their own, so that their rows decide nothing about the tables after them.
    share_outs::long_rows(&mut Random::new(34));
    println!();
    checks::table(&mut Random::new(32));
    println!();
    joins::table(&mut Random::new(33));
    println!();
    measures::table(&mut Random::new(35));
    println!();
    measured_lists::table(&mut Random::new(36));
    println!();
    most_moves::table(&mut random);
    println!();
    records::table(&mut random);
}
