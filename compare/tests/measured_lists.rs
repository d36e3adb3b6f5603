//! Lists that respect the measure against the second program: every refusal number,
//! both properties of every list, and every entry that was lent. Where there are few
//! lists the second program tries them all.

use compare::comparisons::measured_lists::{any, compared, damaged, Listed};
use compare::random::Random;
use compare::{header, shapes, sizes};
use reference::limits::{MAX_AGENTS, MAX_CHORES};
use reference::measured_list::{by_improving, is_wasteful, Quotas};
use reference::measures::can_try_all;
use reference::sheet::Sheet;
use reference::{compose, measures, plain_checks, refusal, ListVerdict};

const SHEETS: usize = 50_000;
const DAMAGED: usize = 20_000;

/// A sheet that got a list.
struct Given<'a> {
    bytes: &'a [u8],
    sheet: Sheet<'a>,
    owners: &'a [u8],
    /// Entries for the owners.
    lent: usize,
}

impl Given<'_> {
    /// How many chores each agent finds difficult.
    fn difficult_marks(&self) -> impl Iterator<Item = usize> + '_ {
        (0..self.sheet.agents).map(|agent| self.sheet.difficult_marks(agent))
    }

    fn is_even(&self) -> bool {
        let mut lent = vec![0; self.owners.len()];
        let verdict = plain_checks::check_list(self.bytes, self.owners, 1, &mut lent);
        verdict == ListVerdict::Holds
    }

    /// Whether somebody has a chore that it finds difficult.
    fn is_burdened(&self) -> bool {
        let mut owned = self.owners.iter().enumerate();
        owned.any(|(chore, &owner)| self.sheet.is_difficult(usize::from(owner) - 1, chore))
    }

    /// Whether the second program's list by quotas would be wasteful.
    fn needs_improving(&self) -> bool {
        let measures = measures(self.bytes).expect("the sheet was accepted");
        let opened = Quotas::of(&self.sheet, &measures).opened(&self.sheet);
        let opened = opened.expect("every chore has a place");
        let owners: Vec<u8> = opened.iter().map(|agent| agent + 1).collect();
        is_wasteful(self.bytes, &owners)
    }
}

/// What a sheet and its list are like, and how many are so at least.
type Like = (&'static str, usize, fn(&Given) -> bool);

const LIKE: [Like; 17] = [
    ("tried", 25_000, |given| can_try_all(&given.sheet)),
    ("not tried", 4_000, |given| !can_try_all(&given.sheet)),
    ("largest", 10, |given| {
        (given.sheet.agents, given.sheet.chores) == (MAX_AGENTS, MAX_CHORES)
    }),
    ("one agent", 5_000, |given| given.sheet.agents == 1),
    ("no chores", 2_000, |given| given.sheet.chores == 0),
    ("no chores and nothing lent", 1_000, |given| {
        given.sheet.chores == 0 && given.lent == 0
    }),
    ("fewer chores than agents", 2_000, |given| {
        (1..given.sheet.agents).contains(&given.sheet.chores)
    }),
    ("easy marks only", 1_000, |given| {
        given.sheet.chores > 0 && given.difficult_marks().all(|difficult| difficult == 0)
    }),
    ("difficult marks only", 1_000, |given| {
        let chores = given.sheet.chores;
        chores > 0 && given.difficult_marks().all(|difficult| difficult == chores)
    }),
    ("some rows of difficult marks only", 1_000, |given| {
        let is_full = |difficult| difficult == given.sheet.chores;
        given.difficult_marks().any(is_full) && !given.difficult_marks().all(is_full)
    }),
    ("easy weight above 1", 10_000, |given| given.sheet.easy > 1),
    ("lent no more than it must be", 10_000, |given| {
        given.lent == given.sheet.chores
    }),
    ("lent more", 10_000, |given| given.lent > given.sheet.chores),
    ("difficult for an owner", 5_000, |given| given.is_burdened()),
    ("easy for all owners", 5_000, |given| {
        given.sheet.chores > 0 && !given.is_burdened()
    }),
    ("not even", 2_000, |given| !given.is_even()),
    ("quotas are not enough", 1_000, |given| {
        given.needs_improving()
    }),
];

#[test]
fn sheets_of_any_size() {
    let mut random = Random::new(84);
    let mut seen = [0; LIKE.len()];
    let mut sizes = sizes::Seen::default();
    // By number.
    let mut refused = [0; 15];
    for _ in 0..SHEETS {
        let listed = any(&mut random);
        sizes.add(&listed.sheet);
        let Ok(owners) = &listed.answer else {
            refused[usize::from(listed.number())] += 1;
            continue;
        };
        let given = Given {
            bytes: &listed.sheet,
            sheet: Sheet::parse(&listed.sheet).expect("the sheet was accepted"),
            owners,
            lent: listed.lent,
        };
        for (count, (.., is_like)) in seen.iter_mut().zip(LIKE) {
            *count += usize::from(is_like(&given));
        }
    }
    println!("{seen:?} {refused:?}");
    for (count, (name, least, _)) in seen.into_iter().zip(LIKE) {
        assert!(count >= least, "{name}: {count}");
    }
    let of = |number| refused[usize::from(number)];
    let [short, no_multiple] = [refusal::LENT, refusal::MULTIPLE].map(of);
    assert!(short.min(no_multiple) > SHEETS / 20, "{refused:?}");
    assert_eq!(refused.iter().sum::<usize>(), short + no_multiple);
    sizes.assert_all((0..=17).chain(sizes::LONGEST), 10);
}

/// Sheets on which the second program makes many improvements, of two agents to as
/// many as there may be.
#[test]
fn many_improvements() {
    let mut random = Random::new(87);
    let mut all = 0;
    let mut compare = |agents: usize, chores: usize, weights| {
        let sheet = shapes::nested(agents, chores, weights);
        let listed = compared(&mut random, sheet, chores);
        assert_eq!(listed.number(), 0);
        let measures = measures(&listed.sheet).expect("the sheet was accepted");
        let sheet = Sheet::parse(&listed.sheet).expect("the sheet was accepted");
        all += by_improving(&sheet, &measures).improvements;
    };
    for agents in 2..=MAX_AGENTS {
        for chores in [agents, 2 * agents + 1, 100, 200] {
            for weights in [(1, 2), (2, 6), (1, 10), (1, 1_000)] {
                compare(agents, chores, weights);
            }
        }
    }
    compare(MAX_AGENTS, MAX_CHORES, (1, 2));
    println!("{all}");
    assert!(all > 10_000, "{all}");
}

#[test]
fn every_lent_length() {
    let mut random = Random::new(85);
    let sheet = compose::sheet(2, 6, &["edededede", "ddddeeeed", "eeeeeeeee"]);
    for lent in 0..40 {
        let listed = compared(&mut random, sheet.clone(), lent);
        let expected = if lent < 9 { refusal::LENT } else { 0 };
        assert_eq!(listed.number(), expected, "{lent}");
    }
}

/// Faults that come after a sheet's own, whether or not there is one of those: weights
/// that alone would be refused, and a list that is too short.
fn later_faults(listed: &Listed) -> [bool; 2] {
    let [easy, difficult] = header::weights(&listed.sheet);
    let no_multiple = easy > 0 && !difficult.is_multiple_of(easy);
    [no_multiple, listed.lent < header::chores(&listed.sheet)]
}

#[test]
fn damaged_sheets() {
    let mut random = Random::new(86);
    // By number, with such weights or not, and with such a list or not.
    let mut numbers = [[[0; 2]; 2]; 15];
    for _ in 0..DAMAGED {
        let listed = damaged(&mut random);
        let [no_multiple, short] = later_faults(&listed).map(usize::from);
        numbers[usize::from(listed.number())][no_multiple][short] += 1;
    }
    println!("{numbers:?}");
    let least = DAMAGED / 400;
    for number in [1, 3, 4, 5] {
        let mut all = numbers[number].iter().flatten();
        assert!(all.all(|&count| count >= least), "{number}: {numbers:?}");
    }
    // No list here is long enough for more chores than there may be.
    let [[_, multiple], [_, no_multiple]] = numbers[2];
    assert!(multiple >= least && no_multiple >= least, "{numbers:?}");
    // 14 comes before 8, and neither without its fault.
    let [of_multiple, [enough, short]] = numbers[14];
    assert!(of_multiple == [0, 0] && enough >= least && short >= least);
    let [[enough, short], no_multiple] = numbers[8];
    assert!(enough == 0 && short >= least && no_multiple == [0, 0]);
    let [[none, short], no_multiple] = numbers[0];
    assert!(none >= least && short == 0 && no_multiple == [0, 0]);
}
