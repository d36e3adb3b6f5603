//! The comparisons with the second program on as many inputs as one likes.

use compare::soak::{compared, run, Difference, Tally, KINDS};
use std::process::ExitCode;
use std::time::{Duration, Instant};
use std::{env, panic, thread};

fn main() -> ExitCode {
    let words: Vec<String> = env::args().skip(1).collect();
    asked(&words).unwrap_or_else(|| {
        eprintln!("soak COUNT SEED, or for one input alone: soak COUNT SEED KIND INPUT");
        ExitCode::from(2)
    })
}

/// None where the words ask for nothing.
fn asked(words: &[String]) -> Option<ExitCode> {
    match words {
        [count, seed] => Some(all(count.parse().ok()?, seed.parse().ok()?)),
        [_, seed, kind, input] => one(kind, seed.parse().ok()?, input.parse().ok()?),
        _ => None,
    }
}

fn all(count: usize, seed: u64) -> ExitCode {
    let start = Instant::now();
    let threads = thread::available_parallelism().map_or(1, usize::from);
    // Of the first difference alone, and below.
    panic::set_hook(Box::new(|_| ()));
    match run(&KINDS, count, seed, threads) {
        Ok(tallies) => {
            print(&tallies, seed, start.elapsed());
            ExitCode::SUCCESS
        }
        Err(Difference { kind, number, said }) => {
            eprintln!("{kind}, seed {seed}, input {number}: {said}");
            eprintln!("This input again: make soak SEED={seed} KIND='{kind}' INPUT={number}");
            ExitCode::FAILURE
        }
    }
}

/// A line for each kind, and one for all of them.
fn print(tallies: &[Tally], seed: u64, time: Duration) {
    let mut all = Tally::default();
    for (kind, tally) in KINDS.iter().zip(tallies) {
        println!("{:<24}{:>9}  {tally}", kind.name, tally.inputs);
        all.add_all(tally);
    }
    println!(
        "{} inputs, {} of them refused, answered alike; seed {seed}, checksum {:016x}, {} seconds",
        all.inputs,
        all.refused(),
        all.checksum,
        time.as_secs()
    );
}

/// None where there is no such kind.
fn one(name: &str, seed: u64, number: usize) -> Option<ExitCode> {
    let kind = KINDS.iter().find(|kind| kind.name == name)?;
    let case = compared(kind, seed, number);
    println!("{:?}: {}", case.input, case.answer);
    Some(ExitCode::SUCCESS)
}
