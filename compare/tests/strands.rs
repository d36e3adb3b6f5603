//! Two strands against the second program: the joined sheet, the marks shown,
//! and all lent memory. Each joined sheet is one that can be shared out.

use compare::comparisons::joins;
use compare::comparisons::marks::{self, Marks};
use compare::random::Random;
use compare::sizes;
use compare::strands::Pair;
use reference::limits::MAX_CHORES;
use reference::refusal;
use reference::sheet::Sheet;

const PAIRS: usize = 50_000;

/// What a refusal is about.
#[derive(Debug, Clone, Copy, PartialEq, Eq)]
enum Cause {
    First,
    Second,
    Both,
}

impl Cause {
    fn of(pair: &Pair) -> Self {
        match (Sheet::parse(&pair.first), Sheet::parse(&pair.second)) {
            (Err(_), _) => Cause::First,
            (_, Err(_)) => Cause::Second,
            _ => Cause::Both,
        }
    }
}

/// How often each number was answered, by cause; 0 for none.
#[derive(Debug, Default)]
struct Seen {
    numbers: [[usize; 13]; 3],
}

impl Seen {
    fn add(&mut self, pair: &Pair, number: u8) {
        self.numbers[Cause::of(pair) as usize][usize::from(number)] += 1;
    }

    /// These numbers were seen, each so often, and no others.
    fn assert_only(&self, cause: Cause, least: &[(usize, usize)]) {
        for (number, &count) in self.numbers[cause as usize].iter().enumerate() {
            match least.iter().find(|row| row.0 == number) {
                Some(&(_, least)) => assert!(count > least, "{number} {cause:?} {self:?}"),
                None => assert_eq!(count, 0, "{number} {cause:?} {self:?}"),
            }
        }
    }

    fn assert_own(&self) {
        let own = [1, 2, 3, 4, 5].map(|number| (number, 300));
        self.assert_only(Cause::First, &own);
        self.assert_only(Cause::Second, &own);
    }
}

/// 12 before 2, 12 before 8, and the 2 of both before 8, where each would apply.
fn before(pair: &Pair, number: u8, lent: usize) -> [bool; 3] {
    let differ = number == refusal::STRANDS;
    let too_many = pair.chores().iter().sum::<usize>() > MAX_CHORES;
    let of_both = number == refusal::CHORES && Cause::of(pair) == Cause::Both;
    let short = lent < pair.bytes();
    [differ && too_many, differ && short, of_both && short]
}

/// The first strand alone has no chores, the second alone, or neither has any.
fn empty(pair: &Pair) -> [bool; 3] {
    let [first, second] = pair.chores().map(|chores| chores == 0);
    [first && !second, !first && second, first && second]
}

fn add(counts: &mut [usize; 3], these: [bool; 3]) {
    for (count, this) in counts.iter_mut().zip(these) {
        *count += usize::from(this);
    }
}

/// How often the seam was after so many bits of a byte, with so many bits of a
/// byte for the last marks of the second strand.
type Seams = [[usize; 8]; 8];

fn add_seam(seams: &mut Seams, pair: &Pair) {
    let [first, second] = pair.chores();
    seams[first % 8][second % 8] += 1;
}

#[test]
fn joined_sheets() {
    let mut random = Random::new(61);
    let mut seen = Seen::default();
    let (mut in_order, mut of_none) = ([0; 3], [0; 3]);
    let mut shared_out = 0;
    let (mut seams, mut sizes) = (Seams::default(), sizes::Seen::default());
    for _ in 0..PAIRS {
        let joined = joins::any(&mut random);
        let (pair, number) = (&joined.pair, joined.number());
        seen.add(pair, number);
        add(&mut in_order, before(pair, number, joined.lent));
        let Ok(sheet) = &joined.answer else { continue };
        add(&mut of_none, empty(pair));
        add_seam(&mut seams, pair);
        sizes.add(sheet);
        shared_out += usize::from(joined.is_shared_out);
    }
    println!("{seen:?} {in_order:?} {of_none:?} {shared_out}");
    seen.assert_own();
    let least = [(0, PAIRS / 4), (2, 1_000), (8, 3_000), (12, 3_000)];
    seen.assert_only(Cause::Both, &least);
    assert!(in_order.iter().all(|&count| count > 200), "{in_order:?}");
    assert!(of_none.iter().all(|&count| count > 200), "{of_none:?}");
    assert!(shared_out > PAIRS / 4, "{shared_out}");
    sizes.assert_all((0..=50).chain(sizes::LONGEST), 10);
    sizes.assert_all([MAX_CHORES], 300);
    let often = |counts: &[usize; 8]| counts.iter().all(|&count| count > 20);
    assert!(seams.iter().all(often), "{seams:?}");
}

#[test]
fn marks_shown() {
    let mut random = Random::new(62);
    let mut seen = Seen::default();
    let mut at_the_seam = [0; 2];
    for _ in 0..PAIRS {
        let Marks { pair, numbers } = marks::any(&mut random);
        for (place, number) in numbers.into_iter().enumerate() {
            seen.add(&pair, number);
            if place < 2 {
                at_the_seam[place] += usize::from(number == 0);
            }
        }
    }
    println!("{seen:?} {at_the_seam:?}");
    seen.assert_own();
    let least = [(0, PAIRS), (2, 5_000), (9, PAIRS), (12, 20_000)];
    seen.assert_only(Cause::Both, &least);
    let often = at_the_seam.iter().all(|&count| count > PAIRS / 4);
    assert!(often, "{at_the_seam:?}");
}
