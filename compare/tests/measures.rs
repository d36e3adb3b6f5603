//! Everyone's own measure against the second program: every number, and every
//! entry that was lent. Where there are few partitions the second program tries
//! them all.

use compare::comparisons::measures::{any, compared, damaged, number};
use compare::random::Random;
use compare::{header, sizes, PROVED};
use reference::compose;
use reference::limits::{MAX_AGENTS, MAX_CHORES, MAX_WEIGHT};
use reference::measures::can_try_all;
use reference::refusal;
use reference::sheet::Sheet;

const SHEETS: usize = 50_000;
const DAMAGED: usize = 20_000;

/// What a sheet and its measures are like, and how many are so at least.
type Like = (&'static str, usize, fn(&Sheet, &[u32]) -> bool);

const LIKE: [Like; 12] = [
    ("tried", 25_000, |sheet, _| can_try_all(sheet)),
    ("dealt", 5_000, |sheet, _| !can_try_all(sheet)),
    ("largest", 10, |sheet, _| {
        (sheet.agents, sheet.chores) == (MAX_AGENTS, MAX_CHORES)
    }),
    ("one agent", 5_000, |sheet, _| sheet.agents == 1),
    ("no chores", 2_000, |sheet, _| sheet.chores == 0),
    ("fewer chores than agents", 2_000, |sheet, _| {
        (1..sheet.agents).contains(&sheet.chores)
    }),
    ("easy marks only", 1_000, |sheet, _| {
        sheet.chores > 0 && difficult_marks(sheet).all(|difficult| difficult == 0)
    }),
    ("difficult marks only", 1_000, |sheet, _| {
        sheet.chores > 0 && difficult_marks(sheet).all(|difficult| difficult == sheet.chores)
    }),
    ("some rows of difficult marks only", 1_000, |sheet, _| {
        let is_full = |difficult| difficult == sheet.chores;
        difficult_marks(sheet).any(is_full) && !difficult_marks(sheet).all(is_full)
    }),
    ("easy weight above 1", 10_000, |sheet, _| sheet.easy > 1),
    ("one measure for all", 5_000, |sheet, measures| {
        sheet.chores > 0 && sheet.agents > 1 && !differ(measures)
    }),
    ("measures that differ", 5_000, |_, measures| {
        differ(measures)
    }),
];

/// How many chores each agent finds difficult.
fn difficult_marks<'a>(sheet: &'a Sheet) -> impl Iterator<Item = usize> + 'a {
    (0..sheet.agents).map(|agent| sheet.difficult_marks(agent))
}

fn differ(measures: &[u32]) -> bool {
    measures.iter().any(|&measure| measure != measures[0])
}

#[test]
fn sheets_of_any_size() {
    let mut random = Random::new(81);
    let mut seen = [0; LIKE.len()];
    let mut sizes = sizes::Seen::default();
    let mut refused = 0;
    for _ in 0..SHEETS {
        let (sheet, answer) = any(&PROVED, &mut random);
        sizes.add(&sheet);
        let Ok(measures) = answer else {
            assert_eq!(answer, Err(refusal::MULTIPLE), "{sheet:?}");
            refused += 1;
            continue;
        };
        let sheet = Sheet::parse(&sheet).expect("the sheet was accepted");
        for (count, (.., is_like)) in seen.iter_mut().zip(LIKE) {
            *count += usize::from(is_like(&sheet, &measures));
        }
    }
    println!("{seen:?} {refused}");
    for (count, (name, least, _)) in seen.into_iter().zip(LIKE) {
        assert!(count >= least, "{name}: {count}");
    }
    assert!(refused > SHEETS / 20, "{refused}");
    sizes.assert_all((0..=17).chain(sizes::LONGEST), 10);
}

#[test]
fn any_weights() {
    let mut random = Random::new(83);
    for difficult in 2..=MAX_WEIGHT as u16 {
        for easy in 1..difficult {
            let sheet = compose::sheet(easy, difficult, &["ed"]);
            let answer = compared(&PROVED, &mut random, &sheet);
            assert_eq!(answer.is_ok(), difficult.is_multiple_of(easy), "{sheet:?}");
        }
    }
}

/// Whether the weights alone would be refused.
fn is_no_multiple(sheet: &[u8]) -> bool {
    let [easy, difficult] = header::weights(sheet);
    easy > 0 && !difficult.is_multiple_of(easy)
}

#[test]
fn damaged_sheets() {
    let mut random = Random::new(82);
    // By number, in all and with such weights, which come after all else.
    let mut numbers = [[0; 15]; 2];
    for _ in 0..DAMAGED {
        let (sheet, answer) = damaged(&PROVED, &mut random);
        let number = usize::from(number(&answer));
        numbers[0][number] += 1;
        numbers[1][number] += usize::from(is_no_multiple(&sheet));
    }
    println!("{numbers:?}");
    let [any, no_multiple] = numbers;
    for number in [1, 2, 3, 4, 5, 14] {
        assert!(no_multiple[number] > DAMAGED / 200, "{no_multiple:?}");
    }
    assert!(any[0] > DAMAGED / 200, "{any:?}");
    assert_eq!((no_multiple[0], no_multiple[14]), (0, any[14]));
}
