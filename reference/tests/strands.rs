//! Two strands: the joined sheet, the marks shown, and what is refused.

mod common;

use common::{faulty_sheet, first_fault, Random, SHEET_FAULTS};
use reference::sheet::{row_bytes, Sheet, HEADER_BYTES, MAX_SHEET_BYTES};
use reference::{compose, join, show_marks, Join, Strand};

/// The joined sheet, or the refusal number, with a list that any sheet fits.
fn joined(first: &[u8], second: &[u8]) -> Result<Vec<u8>, u8> {
    let mut lent = vec![77; MAX_SHEET_BYTES + 1];
    match join(first, second, &mut lent) {
        Join::Refused(number) => {
            assert!(lent.iter().all(|&byte| byte == 77));
            Err(number)
        }
        Join::Joined { written } => {
            assert!(lent[written..].iter().all(|&byte| byte == 77));
            lent.truncate(written);
            Ok(lent)
        }
    }
}

/// The strand, where the row starts in its sheet, and its bytes.
fn shown(first: &[u8], second: &[u8], agent: usize, chore: usize) -> (u8, usize, Vec<u8>) {
    let shown = show_marks(first, second, agent, chore).unwrap();
    let sheet = match shown.strand {
        Strand::First => first,
        Strand::Second => second,
    };
    let start = shown.marks.as_ptr() as usize - sheet.as_ptr() as usize;
    assert_eq!(&sheet[start..][..shown.marks.len()], shown.marks);
    (shown.strand as u8, start, shown.marks.to_vec())
}

fn of_easy(agents: usize, chores: usize) -> Vec<u8> {
    faulty_sheet(agents, chores, 0)
}

#[test]
fn worked_pairs() {
    let table: [[&[&str]; 3]; 6] = [
        [&["ed", "de"], &["d", "e"], &["edd", "dee"]],
        [&["e"], &["ddd"], &["eddd"]],
        [&["ed", "dd", "ee"], &["de"; 3], &["edde", "ddde", "eede"]],
        // Strands without chores.
        [&["", ""], &["ed", "de"], &["ed", "de"]],
        [&["ed", "de"], &["", ""], &["ed", "de"]],
        [&["", ""], &["", ""], &["", ""]],
    ];
    for rows in table {
        let [first, second, expected] = rows.map(|rows| compose::sheet(1, 258, rows));
        assert_eq!(joined(&first, &second), Ok(expected), "{rows:?}");
    }
}

/// One agent's row of a strand: how many marks, and their bytes.
type Row = (usize, &'static [u8]);

/// Two rows, and the row that they make.
const SEAMS: [(Row, Row, &[u8]); 8] = [
    // Inside a byte, which both fill, leave bits of, or go on after.
    ((3, &[0b1010_0000]), (5, &[0b1001_1000]), &[0b1011_0011]),
    ((3, &[0b1010_0000]), (4, &[0b1001_0000]), &[0b1011_0010]),
    (
        (3, &[0b1010_0000]),
        (6, &[0b1001_1100]),
        &[0b1011_0011, 0b1000_0000],
    ),
    // Two bytes of the second make three.
    (
        (7, &[0b0111_1110]),
        (10, &[0b1000_0001, 0b0100_0000]),
        &[0b0111_1111, 0b0000_0010, 0b1000_0000],
    ),
    // Between two bytes.
    (
        (8, &[0b1010_0101]),
        (1, &[0b1000_0000]),
        &[0b1010_0101, 0b1000_0000],
    ),
    // After the first bit of a byte, and before the last.
    (
        (9, &[0b0000_0000, 0b1000_0000]),
        (7, &[0b0000_0010]),
        &[0b0000_0000, 0b1000_0001],
    ),
    ((1, &[0b1000_0000]), (8, &[0xff]), &[0xff, 0b1000_0000]),
    (
        (0, &[]),
        (9, &[0b0101_0101, 0b1000_0000]),
        &[0b0101_0101, 0b1000_0000],
    ),
];

#[test]
fn bytes_around_the_seam() {
    for ((one, first), (other, second), expected) in SEAMS {
        let sheet = |chores, row: &[u8]| [&compose::header(1, chores, 1, 3), row].concat();
        let both = joined(&sheet(one, first), &sheet(other, second));
        assert_eq!(both, Ok(sheet(one + other, expected)));
    }
}

#[test]
fn join_finds_the_first_of_any_faults() {
    let numbers = [&SHEET_FAULTS[..], &SHEET_FAULTS[..], &[12, 2, 8]].concat();
    for faults in 1..1_usize << numbers.len() {
        let has = |fault: usize| faults >> fault & 1 == 1;
        let (first, second) = faulty_pair(faults);
        // Two strands of 4 chores make a sheet of 9 bytes.
        let mut lent = [77; 9];
        let lent = &mut lent[..if has(14) { 8 } else { 9 }];
        let expected = first_fault(faults, &numbers).unwrap();
        let answer = join(&first, &second, lent);
        assert_eq!(answer, Join::Refused(expected), "faults {faults:b}");
        assert!(lent.iter().all(|&byte| byte == 77));
    }
    let (first, second) = faulty_pair(0);
    assert_eq!(joined(&first, &second), Ok(of_easy(2, 8)));
}

#[test]
fn show_marks_finds_the_first_of_any_faults() {
    let numbers = [&SHEET_FAULTS[..], &SHEET_FAULTS[..], &[12, 2, 9, 9]].concat();
    for faults in 1..1_usize << numbers.len() {
        let has = |fault: usize| faults >> fault & 1 == 1;
        let (first, second) = faulty_pair(faults);
        let agent = if has(14) { 4 } else { 2 };
        let chore = if has(15) { 0 } else { 8 };
        let expected = first_fault(faults, &numbers).unwrap();
        let answer = show_marks(&first, &second, agent, chore);
        assert_eq!(answer, Err(expected), "faults {faults:b}");
    }
}

/// Bits 0 to 5 are the first sheet's faults, 6 to 11 the second's. With bit 12
/// the strands differ in their agents, with bit 13 they have 4,002 chores.
fn faulty_pair(faults: usize) -> (Vec<u8>, Vec<u8>) {
    let has = |fault: usize| faults >> fault & 1 == 1;
    let agents = if has(12) { 3 } else { 2 };
    let chores = if has(13) { 2_001 } else { 4 };
    let first = faulty_sheet(2, chores, faults);
    (first, faulty_sheet(agents, chores, faults >> 6))
}

#[test]
fn agents_and_both_weights_must_agree() {
    let sheet = |agents: usize, easy, difficult| {
        let rows = vec!["e"; agents];
        compose::sheet(easy, difficult, &rows)
    };
    let first = sheet(2, 3, 300);
    assert!(joined(&first, &sheet(2, 3, 300)).is_ok());
    for (agents, easy, difficult) in [
        (1, 3, 300),
        (3, 3, 300),
        (2, 2, 300),
        (2, 4, 300),
        (2, 3, 299),
        (2, 3, 301),
        // Only a high byte is another.
        (2, 3 + 256, 300),
        (2, 3, 300 + 256),
        (3, 4, 301),
    ] {
        let second = sheet(agents, easy, difficult);
        for (one, other) in [(&first, &second), (&second, &first)] {
            assert_eq!(joined(one, other), Err(12));
            assert_eq!(show_marks(one, other, 1, 1), Err(12));
        }
    }
    // Also where neither has a chore.
    let (first, second) = (of_easy(2, 0), of_easy(3, 0));
    assert_eq!(joined(&first, &second), Err(12));
    assert_eq!(show_marks(&first, &second, 0, 0), Err(12));
}

#[test]
fn chores_up_to_the_limit() {
    for agents in [1, 32] {
        for one in [0, 1, 7, 8, 1_999, 2_000, 3_993, 3_999, 4_000] {
            let (first, rest) = (of_easy(agents, one), 4_000 - one);
            let full = joined(&first, &of_easy(agents, rest));
            assert_eq!(full, Ok(of_easy(agents, 4_000)));
            // A sheet of 4,001 chores breaks its own rule, with the same number.
            let more = of_easy(agents, rest + 1);
            assert_eq!(joined(&first, &more), Err(2));
            assert_eq!(show_marks(&first, &more, 1, 1), Err(2));
        }
        let most = of_easy(agents, 4_000);
        assert_eq!(joined(&most, &most), Err(2));
        assert_eq!(show_marks(&most, &most, 0, 0), Err(2));
    }
}

#[test]
fn a_refusal_keeps_the_lent_list_and_a_join_its_rest() {
    let first = compose::sheet(1, 3, &["ed", "dd"]);
    let second = compose::sheet(1, 3, &["e", "d"]);
    let expected = compose::sheet(1, 3, &["ede", "ddd"]);
    for length in 0..20 {
        let mut lent = vec![77; length];
        let answer = join(&first, &second, &mut lent);
        if length < 9 {
            assert_eq!(answer, Join::Refused(8));
            assert_eq!(lent, vec![77; length]);
        } else {
            assert_eq!(answer, Join::Joined { written: 9 });
            assert_eq!(lent[..9], expected);
            assert_eq!(lent[9..], vec![77; length - 9]);
        }
    }
    // Seven bytes are enough for no chores, and none for no sheet.
    let none = compose::sheet(1, 3, &["", ""]);
    let mut lent = [77; 7];
    assert_eq!(join(&none, &none, &mut lent[..6]), Join::Refused(8));
    assert_eq!(lent, [77; 7]);
    let answer = join(&none, &none, &mut lent);
    assert_eq!(answer, Join::Joined { written: 7 });
    assert_eq!(lent[..], none);
    assert_eq!(join(&[], &[], &mut []), Join::Refused(5));
}

#[test]
fn marks_on_both_sides_of_the_seam() {
    let first = compose::sheet(1, 3, &["edd", "dde", "eee"]);
    let second = compose::sheet(1, 3, &["deeeeeeed", "edddddddd", "eeeeeeeee"]);
    for chore in 1..=3 {
        assert_eq!(shown(&first, &second, 1, chore), (1, 7, vec![0x60]));
        assert_eq!(shown(&first, &second, 2, chore), (1, 8, vec![0xc0]));
        assert_eq!(shown(&first, &second, 3, chore), (1, 9, vec![0]));
    }
    // Nine chores take two bytes a row.
    for chore in 4..=12 {
        assert_eq!(shown(&first, &second, 1, chore), (2, 7, vec![0x80, 0x80]));
        assert_eq!(shown(&first, &second, 2, chore), (2, 9, vec![0x7f, 0x80]));
        assert_eq!(shown(&first, &second, 3, chore), (2, 11, vec![0, 0]));
    }
}

#[test]
fn no_marks_of_what_is_not_there() {
    let first = compose::sheet(1, 3, &["edd", "dde"]);
    let second = compose::sheet(1, 3, &["ed", "de"]);
    for absent in [0, 3, 257, usize::MAX] {
        assert_eq!(show_marks(&first, &second, absent, 1), Err(9));
        assert_eq!(show_marks(&first, &second, absent, 4), Err(9));
    }
    for absent in [0, 6, 257, usize::MAX] {
        assert_eq!(show_marks(&first, &second, 2, absent), Err(9));
        assert_eq!(show_marks(&first, &second, 0, absent), Err(9));
    }
    let none = compose::sheet(1, 3, &["", ""]);
    assert_eq!(shown(&none, &second, 2, 1), (2, 8, vec![0x80]));
    assert_eq!(show_marks(&none, &second, 2, 3), Err(9));
    assert_eq!(shown(&first, &none, 2, 3), (1, 8, vec![0xc0]));
    assert_eq!(show_marks(&first, &none, 2, 4), Err(9));
    assert_eq!(show_marks(&none, &none, 1, 1), Err(9));
}

/// The joined sheet mark by mark, and each row as it is shown.
fn compare(first: &[u8], second: &[u8]) {
    let whole = joined(first, second).unwrap();
    let [one, other, both] = [first, second, &whole].map(|bytes| Sheet::parse(bytes).unwrap());
    let is_difficult = |agent: usize, chore: usize| match chore.checked_sub(one.chores) {
        None => one.is_difficult(agent, chore),
        Some(chore) => other.is_difficult(agent, chore),
    };
    for agent in 0..both.agents {
        for chore in 0..both.chores {
            let expected = is_difficult(agent, chore);
            assert_eq!(both.is_difficult(agent, chore), expected);
            let (strand, sheet) = if chore < one.chores {
                (1, &one)
            } else {
                (2, &other)
            };
            let start = HEADER_BYTES + agent * row_bytes(sheet.chores);
            let row = (strand, start, sheet.row(agent).to_vec());
            assert_eq!(shown(first, second, agent + 1, chore + 1), row);
        }
    }
}

/// Two sheets of one desk, of so many chores.
fn pair(random: &mut Random, agents: usize, chores: [usize; 2]) -> [Vec<u8>; 2] {
    let (easy, difficult) = random.weights();
    chores.map(|chores| compose::sheet(easy, difficult, &random.rows(agents, chores)))
}

#[test]
fn a_seam_anywhere() {
    let mut random = Random::new(63);
    for (one, other) in (0..=25).flat_map(|one| (0..=25).map(move |other| (one, other))) {
        let agents = 1 + random.below(3);
        let [first, second] = pair(&mut random, agents, [one, other]);
        compare(&first, &second);
    }
}

#[test]
fn random_pairs() {
    let mut random = Random::new(61);
    for round in 0..500 {
        let (agents, chores) = match round % 50 {
            0 => random.size(),
            1 => (1 + random.below(3), 4_000 - random.below(9)),
            _ => (1 + random.below(6), random.below(20)),
        };
        let one = random.below(chores + 1);
        let [first, second] = pair(&mut random, agents, [one, chores - one]);
        compare(&first, &second);
    }
}
