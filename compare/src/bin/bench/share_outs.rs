//! The share-out: proved, in plain C, and the second program's.

use crate::columns::NAME;
use crate::sheets::{all_difficult, few_easy, halves, ladder, many_moves, sheets, Make};
use crate::timing::in_turn;
use compare::random::Random;
use compare::{Library, PLAIN, PROVED};
use reference::limits::{MAX_AGENTS, MAX_CHORES, MIN_SCRATCH};
use reference::price_bytes::PRICE_BYTES;
use reference::{plain, price_bytes, ShareOut};

/// What a share-out is lent, and what it answers.
#[derive(Debug, PartialEq, Eq)]
pub struct Desk {
    owners: [u8; MAX_CHORES],
    prices: [u8; PRICE_BYTES * MAX_CHORES],
    scratch: [u8; MIN_SCRATCH],
    pub moves: u64,
    pub cuts: u8,
}

/// One way to share a sheet out.
type Way = fn(&mut Desk, &[u8]);

impl Desk {
    pub fn new() -> Self {
        Desk {
            owners: [0; MAX_CHORES],
            prices: [0; PRICE_BYTES * MAX_CHORES],
            scratch: [0; MIN_SCRATCH],
            moves: 0,
            cuts: 0,
        }
    }

    pub fn after(way: Way, sheet: &[u8]) -> Self {
        let mut desk = Desk::new();
        way(&mut desk, sheet);
        desk
    }

    fn by(&mut self, library: &Library, sheet: &[u8]) {
        let Desk {
            owners,
            prices,
            scratch,
            moves,
            cuts,
        } = self;
        let number = library.allocate(sheet, owners, prices, scratch, moves, cuts);
        assert_eq!(number, 0);
    }

    pub fn proved(&mut self, sheet: &[u8]) {
        self.by(&PROVED, sheet);
    }

    /// The same with a record.
    pub fn recorded(&mut self, sheet: &[u8], record: &mut [u8]) {
        let Desk {
            owners,
            prices,
            scratch,
            moves,
            cuts,
        } = self;
        let number =
            compare::allocate_recorded(sheet, owners, prices, scratch, record, moves, cuts);
        assert_eq!(number, 0);
    }

    fn plain(&mut self, sheet: &[u8]) {
        self.by(&PLAIN, sheet);
    }

    pub fn second(&mut self, sheet: &[u8]) {
        let Desk {
            owners,
            prices,
            scratch,
            ..
        } = self;
        match price_bytes::allocate(plain::work, sheet, owners, prices, scratch) {
            ShareOut::Refused(number) => panic!("refused {number}"),
            ShareOut::Shared { moves, cuts } => (self.moves, self.cuts) = (moves, cuts),
        }
    }
}

/// The moves and cuts by sheet, on which all three agree, as on the rest.
fn agreed(sheets: &[Vec<u8>]) -> (f64, f64) {
    let (mut moves, mut cuts) = (0.0, 0.0);
    for sheet in sheets {
        let [proved, plain, second] =
            [Desk::proved, Desk::plain, Desk::second].map(|way: Way| Desk::after(way, sheet));
        assert_eq!(proved, second, "{sheet:?}");
        assert_eq!(plain, second, "{sheet:?}");
        moves += proved.moves as f64;
        cuts += f64::from(proved.cuts);
    }
    let count = sheets.len() as f64;
    (moves / count, cuts / count)
}

pub fn run(way: Way, sheets: &[Vec<u8>]) -> impl FnMut() + '_ {
    let mut desk = Desk::new();
    move || sheets.iter().for_each(|sheet| way(&mut desk, sheet))
}

fn row(name: &str, sheets: &[Vec<u8>]) {
    let (moves, cuts) = agreed(sheets);
    let ways: [&mut dyn FnMut(); 3] = [
        &mut run(Desk::proved, sheets),
        &mut run(Desk::plain, sheets),
        &mut run(Desk::second, sheets),
    ];
    let [proved, plain, second] = in_turn(sheets.len(), ways);
    println!(
        "{name:<NAME$}{moves:>7.1}{cuts:>6.1}{proved:>10.2}{plain:>10.2}{:>7.2}{second:>11.2}{:>7.2}",
        proved / plain,
        proved / second
    );
}

pub fn table(random: &mut Random) {
    println!(
        "{:<NAME$}{:>7}{:>6}{:>10}{:>10}{:>7}{:>11}{:>7}",
        "share-out", "moves", "cuts", "proved", "plain C", "ratio", "reference", "ratio"
    );
    for (agents, chores) in [(1, 200), (2, 200), (3, 200), (6, 60), (32, 200)] {
        let name = format!("{agents} x {chores}, random");
        row(&name, &sheets(random, halves, agents, chores));
    }
    row("32 x 200, disjoint likes", &sheets(random, ladder, 32, 200));
}

/// The rows of as many chores as there may be.
pub fn long_rows(random: &mut Random) {
    let rows: [(usize, &str, Make); 6] = [
        (2, "random", halves),
        (2, "many moves", many_moves),
        (MAX_AGENTS, "random", halves),
        (MAX_AGENTS, "disjoint likes", ladder),
        (MAX_AGENTS, "difficult 0.97", few_easy),
        (MAX_AGENTS, "24 difficult rows", all_difficult),
    ];
    for (agents, kind, make) in rows {
        let name = format!("{agents} x {MAX_CHORES}, {kind}");
        row(&name, &sheets(random, make, agents, MAX_CHORES));
    }
}
