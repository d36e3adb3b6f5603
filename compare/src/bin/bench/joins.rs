//! The join of two strands: proved, in plain C, and the second program's.

use crate::columns;
use crate::sheets::{count, halves};
use crate::timing::in_turn;
use compare::random::Random;
use compare::strands::Pair;
use compare::{Library, PLAIN, PROVED};
use reference::sheet::MAX_SHEET_BYTES;
use reference::{join, Join};

/// What a join is lent, and what it answers.
#[derive(Debug, PartialEq, Eq)]
struct Lent {
    joined: [u8; MAX_SHEET_BYTES],
    written: usize,
}

/// One way to join two strands.
type Way = fn(&mut Lent, &Pair);

impl Lent {
    fn new() -> Self {
        Lent {
            joined: [0; MAX_SHEET_BYTES],
            written: 0,
        }
    }

    fn after(way: Way, pair: &Pair) -> Self {
        let mut lent = Lent::new();
        way(&mut lent, pair);
        lent
    }

    fn by(&mut self, library: &Library, pair: &Pair) {
        let number = library.join(pair, &mut self.joined, &mut self.written);
        assert_eq!(number, 0);
    }

    fn proved(&mut self, pair: &Pair) {
        self.by(&PROVED, pair);
    }

    fn plain(&mut self, pair: &Pair) {
        self.by(&PLAIN, pair);
    }

    fn second(&mut self, pair: &Pair) {
        match join(&pair.first, &pair.second, &mut self.joined) {
            Join::Refused(number) => panic!("refused {number}"),
            Join::Joined { written } => self.written = written,
        }
    }
}

fn run(way: Way, pairs: &[Pair]) -> impl FnMut() + '_ {
    let mut lent = Lent::new();
    move || pairs.iter().for_each(|pair| way(&mut lent, pair))
}

/// All three must join the same sheet.
fn row(name: &str, pairs: &[Pair]) {
    for pair in pairs {
        let [proved, plain, second] =
            [Lent::proved, Lent::plain, Lent::second].map(|way: Way| Lent::after(way, pair));
        assert_eq!(proved, second, "{pair:?}");
        assert_eq!(plain, second, "{pair:?}");
    }
    let ways: [&mut dyn FnMut(); 3] = [
        &mut run(Lent::proved, pairs),
        &mut run(Lent::plain, pairs),
        &mut run(Lent::second, pairs),
    ];
    columns::row(name, in_turn(pairs.len(), ways));
}

pub fn table(random: &mut Random) {
    columns::heading("join");
    for (agents, chores) in [(3, 100), (6, 30), (32, 100), (32, 2_000)] {
        let name = format!("{agents} x {chores} + {chores}");
        let mut pair = |_| Pair {
            first: halves(random, agents, chores),
            second: halves(random, agents, chores),
        };
        let pairs: Vec<Pair> = (0..count(chores)).map(&mut pair).collect();
        row(&name, &pairs);
    }
}
