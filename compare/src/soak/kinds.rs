//! The kinds of inputs, and how many of a million are of each.

use super::Case;
use crate::comparisons::books::{self, Lists};
use crate::comparisons::{
    joins, list_checks, lookups, marks, measured_lists, measures, price_checks, records, share_outs,
};
use crate::damage::{one_or_two, Fault};
use crate::random::Random;
use crate::shapes::{
    any_sheet, large_sheet, largest_sheet, long_sheet, medium_sheet, small_sheet, wide_sheet,
};
use crate::PROVED;
use reference::{plain, share_out, BookShareOut};

/// Compares one input, which its generator and its number make.
type Compare = fn(&mut Random, usize) -> Case;

#[derive(Debug)]
pub struct Kind {
    /// Decides the inputs, with the seed.
    pub name: &'static str,
    pub weight: usize,
    pub compare: Compare,
}

const fn kind(name: &'static str, weight: usize, compare: Compare) -> Kind {
    Kind {
        name,
        weight,
        compare,
    }
}

/// Kinds whose inputs take long have few of them.
pub static KINDS: [Kind; 35] = [
    kind("small sheets", 68_000, |random, _| {
        share_outs::kept(random, share_out::work, small_sheet).into()
    }),
    kind("medium sheets", 60_000, |random, _| {
        share_outs::kept(random, plain::work, medium_sheet).into()
    }),
    kind("large sheets", 50_000, |random, _| {
        share_outs::kept(random, plain::work, large_sheet).into()
    }),
    kind("wide sheets", 20_000, |random, _| {
        share_outs::kept(random, plain::work, wide_sheet).into()
    }),
    kind("long sheets", 10_000, |random, _| {
        share_outs::kept(random, plain::work, long_sheet).into()
    }),
    kind("largest sheets", 2_000, |random, _| {
        share_outs::kept(random, plain::work, largest_sheet).into()
    }),
    kind("damaged sheets", 70_000, |random, number| {
        share_outs::damaged(random, &faults(number)).into()
    }),
    kind("sheets, short lists", 40_000, |random, _| {
        share_outs::with_short_lists(random).into()
    }),
    kind("records of any sheet", 59_000, |random, _| {
        Case::of_record(records::of_every_length(random, any_sheet, 500))
    }),
    kind("records of long sheets", 1_000, |random, _| {
        Case::of_record(records::of_every_length(random, long_sheet, 20_000))
    }),
    kind("records, faults", 60_000, |random, _| {
        records::faulty(random).into()
    }),
    kind("small lists", 30_000, |random, _| {
        list_checks::small(random).into()
    }),
    kind("lists at every slack", 15_000, |random, _| {
        Case::of_slacks(list_checks::at_every_slack(random, any_sheet))
    }),
    kind("lists of any size", 20_000, |random, _| {
        list_checks::near_share_out(random, any_sheet).into()
    }),
    kind("large lists", 20_000, |random, _| {
        list_checks::near_share_out(random, large_sheet).into()
    }),
    kind("long lists", 4_500, |random, _| {
        list_checks::near_share_out(random, long_sheet).into()
    }),
    kind("largest lists", 500, |random, _| {
        list_checks::near_share_out(random, largest_sheet).into()
    }),
    kind("damaged lists", 40_000, |random, _| {
        list_checks::damaged(random).into()
    }),
    kind("prices", 45_000, |random, _| {
        price_checks::near_share_out(random, any_sheet).into()
    }),
    kind("long prices", 4_000, |random, _| {
        price_checks::near_share_out(random, long_sheet).into()
    }),
    kind("damaged prices", 40_000, |random, _| {
        price_checks::damaged(random).into()
    }),
    kind("greatest prices", 1_000, |random, number| {
        price_checks::greatest(random, number % 101).into()
    }),
    kind("whole books", 48_000, |random, _| {
        with_lists(random, books::whole)
    }),
    kind("books at the limits", 2_000, |random, _| {
        with_lists(random, books::at_a_limit)
    }),
    kind("damaged books", 50_000, |random, _| {
        with_lists(random, books::damaged)
    }),
    kind("books, short lists", 24_700, |random, _| {
        with_lists(random, books::with_short_lists)
    }),
    kind("large books", 5_000, |random, _| {
        with_lists(random, books::large)
    }),
    kind("full books", 300, |random, number| {
        let less = [0, 7, 7][number % 3];
        with_lists(random, |random, lists| books::full(random, lists, less))
    }),
    kind("lookups", 30_000, |random, _| {
        Case::of_lookup(lookups::any(random))
    }),
    kind("joins", 50_000, |random, _| joins::any(random).into()),
    kind("marks shown", 50_000, |random, _| marks::any(random).into()),
    kind("measures", 30_000, |random, _| {
        measures::any(&PROVED, random).into()
    }),
    kind("damaged measures", 10_000, |random, _| {
        measures::damaged(&PROVED, random).into()
    }),
    kind("measured lists", 30_000, |random, _| {
        measured_lists::any(random).into()
    }),
    kind("damaged measured lists", 10_000, |random, _| {
        measured_lists::damaged(random).into()
    }),
];

/// One or two, by turns.
fn faults(number: usize) -> Vec<Fault> {
    let all: Vec<Vec<Fault>> = one_or_two().collect();
    all[number % all.len()].clone()
}

/// Of its own, so that the books before it decide nothing.
fn with_lists(
    random: &mut Random,
    compare: impl Fn(&mut Random, &mut Lists) -> (Vec<u8>, BookShareOut),
) -> Case {
    let mut lists = Lists::new(random);
    compare(random, &mut lists).into()
}
