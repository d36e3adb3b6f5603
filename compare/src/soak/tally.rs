//! How many inputs of a kind had which answer.

use super::{Answer, Case};
use crate::digest::digest;
use std::collections::BTreeMap;
use std::fmt::{self, Display, Formatter};

#[derive(Debug, Clone, Default, PartialEq, Eq)]
pub struct Tally {
    pub inputs: usize,
    answers: BTreeMap<Answer, usize>,
    /// Of all inputs, in any order.
    pub checksum: u64,
}

impl Tally {
    pub fn add(&mut self, case: &Case) {
        self.inputs += 1;
        *self.answers.entry(case.answer).or_default() += 1;
        self.checksum = self.checksum.wrapping_add(digest(&[&case.input]));
    }

    pub fn add_all(&mut self, other: &Tally) {
        self.inputs += other.inputs;
        for (&answer, count) in &other.answers {
            *self.answers.entry(answer).or_default() += count;
        }
        self.checksum = self.checksum.wrapping_add(other.checksum);
    }

    /// By any number.
    pub fn refused(&self) -> usize {
        self.numbers().map(|(_, count)| count).sum()
    }

    fn numbers(&self) -> impl Iterator<Item = (u8, usize)> + '_ {
        self.answers
            .iter()
            .filter_map(|(answer, &count)| match answer {
                Answer::Told(_) => None,
                Answer::Refused(number) => Some((*number, count)),
            })
    }

    fn words(&self) -> impl Iterator<Item = (&'static str, usize)> + '_ {
        self.answers
            .iter()
            .filter_map(|(answer, &count)| match answer {
                Answer::Told(told) => Some((*told, count)),
                Answer::Refused(_) => None,
            })
    }
}

/// Each answer by its word, then those refused, in all and by number.
impl Display for Tally {
    fn fmt(&self, to: &mut Formatter) -> fmt::Result {
        let mut parts: Vec<String> = self
            .words()
            .map(|(told, count)| format!("{told} {count}"))
            .collect();
        let numbers: Vec<String> = self
            .numbers()
            .map(|(number, count)| format!("{number}: {count}"))
            .collect();
        if !numbers.is_empty() {
            parts.push(format!(
                "refused {} ({})",
                self.refused(),
                numbers.join(", ")
            ));
        }
        to.write_str(&parts.join(", "))
    }
}
