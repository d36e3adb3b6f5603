//! All inputs of all kinds, on some threads.

use super::{portions, Case, Kind, Tally};
use crate::digest::digest;
use crate::random::Random;
use std::any::Any;
use std::ops::RangeInclusive;
use std::panic::catch_unwind;
use std::sync::atomic::{AtomicUsize, Ordering};
use std::thread;

/// Inputs that a thread takes at a time.
const CHUNK: usize = 50;

/// The first input on which the programs differ.
#[derive(Debug, Clone, PartialEq, Eq)]
pub struct Difference {
    pub kind: &'static str,
    /// From 1.
    pub number: usize,
    /// The input, and what differs.
    pub said: String,
}

/// One input through both programs. Where they differ it panics.
pub fn compared(kind: &Kind, seed: u64, number: usize) -> Case {
    let [seed, place] = [seed, number as u64].map(u64::to_le_bytes);
    let mut random = Random::new(digest(&[&seed, &place, kind.name.as_bytes()]));
    (kind.compare)(&mut random, number)
}

/// Some inputs of the kind at this place.
type Chunk = (usize, RangeInclusive<usize>);

/// In the order in which they are taken.
fn chunks(kinds: &[Kind], count: usize) -> Vec<Chunk> {
    let portions = portions(kinds, count).into_iter().enumerate();
    let chunks = portions.flat_map(|(place, portion)| {
        let starts = (1..=portion).step_by(CHUNK);
        starts.map(move |start| (place, start..=portion.min(start + CHUNK - 1)))
    });
    chunks.collect()
}

/// What a thread has to tell: what each kind came to; or the place of the kind
/// and the number of an input on which the programs differ, and what was said.
type Worked = Result<Vec<Tally>, (usize, usize, String)>;

/// What each kind comes to, with so many inputs in all.
pub fn run(
    kinds: &[Kind],
    count: usize,
    seed: u64,
    threads: usize,
) -> Result<Vec<Tally>, Difference> {
    let chunks = chunks(kinds, count);
    let next = AtomicUsize::new(0);
    let work = || {
        let worked = some_chunks(kinds, seed, &chunks, &next);
        if worked.is_err() {
            next.store(chunks.len(), Ordering::Relaxed);
        }
        worked
    };
    let worked: Vec<Worked> = thread::scope(|scope| {
        let threads: Vec<_> = (0..threads).map(|_| scope.spawn(work)).collect();
        let ends = threads.into_iter().map(thread::ScopedJoinHandle::join);
        ends.map(|end| end.expect("a thread ends")).collect()
    });
    summed(kinds, &worked)
}

/// One chunk after the other that no other thread has taken.
fn some_chunks(kinds: &[Kind], seed: u64, chunks: &[Chunk], next: &AtomicUsize) -> Worked {
    let mut tallies = vec![Tally::default(); kinds.len()];
    while let Some((place, numbers)) = chunks.get(next.fetch_add(1, Ordering::Relaxed)) {
        for number in numbers.clone() {
            let case = catch_unwind(|| compared(&kinds[*place], seed, number));
            let case = case.map_err(|payload| (*place, number, said(&*payload)))?;
            tallies[*place].add(&case);
        }
    }
    Ok(tallies)
}

/// The words of a panic.
fn said(payload: &dyn Any) -> String {
    let formatted = payload.downcast_ref::<String>().map(String::as_str);
    let words = formatted.or_else(|| payload.downcast_ref::<&str>().copied());
    words.unwrap_or("nothing said").to_string()
}

/// Chunks are taken in order, and each is gone through up to a difference, so
/// that the first one told is the first there is.
fn summed(kinds: &[Kind], worked: &[Worked]) -> Result<Vec<Tally>, Difference> {
    let differences = worked.iter().filter_map(|worked| worked.as_ref().err());
    if let Some((place, number, said)) = differences.min() {
        return Err(Difference {
            kind: kinds[*place].name,
            number: *number,
            said: said.clone(),
        });
    }
    let mut sums = vec![Tally::default(); kinds.len()];
    for tallies in worked.iter().flatten() {
        for (sum, tally) in sums.iter_mut().zip(tallies) {
            sum.add_all(tally);
        }
    }
    Ok(sums)
}
