//! Packed marks: the bytes of worked sheets, every mark and every bit after the
//! last one, and lengths.

mod common;

use common::{a, b, c, d, e, f, g, share, Random};
use reference::sheet::{row_bytes, Sheet, HEADER_BYTES, MAX_SHEET_BYTES};
use reference::{compose, refusal};

#[test]
fn bytes_of_the_lettered_sheets() {
    let table: [(Vec<u8>, &[u8]); 7] = [
        (a(), &[1, 0, 0, 0, 1, 0, 2]),
        (b(), &[2, 0, 4, 0, 1, 0, 3, 0b0000_0000, 0b1111_0000]),
        (c(), &[2, 0, 5, 0, 1, 0, 3, 0b0000_0000, 0b1111_0000]),
        (d(), &[2, 0, 3, 0, 1, 0, 2, 0b0000_0000, 0b0000_0000]),
        (e(), &[2, 0, 2, 0, 1, 0, 2, 0b0100_0000, 0b1000_0000]),
        (f(), &[2, 0, 2, 0, 1, 0, 2, 0b1000_0000, 0b1000_0000]),
        (
            g(),
            &[3, 0, 5, 0, 1, 0, 3, 0b0001_1000, 0b1110_1000, 0b0001_0000],
        ),
    ];
    for (sheet, bytes) in table {
        assert_eq!(sheet, bytes);
    }
}

#[test]
fn each_row_starts_on_a_fresh_byte() {
    let rows = ["eeeeeeeed", "deeeeeede", "ddddddddd"];
    let marks = [0b0000_0000, 0b1000_0000, 0b1000_0001, 0, 0xff, 0b1000_0000];
    let sheet = compose::sheet(1, 258, &rows);
    assert_eq!(sheet, [&[3, 0, 9, 0, 1, 1, 2], &marks[..]].concat());
    // Of eight chores no bit is left over.
    let sheet = compose::sheet(1, 258, &rows.map(|row| &row[..8]));
    let marks = [0b0000_0000, 0b1000_0001, 0xff];
    assert_eq!(sheet, [&[3, 0, 8, 0, 1, 1, 2], &marks[..]].concat());
}

/// The sheet that the bytes are, with every mark looked at.
fn assert_has_rows(sheet: &[u8], rows: &[String]) {
    let parsed = Sheet::parse(sheet).unwrap();
    assert_eq!(parsed.agents, rows.len());
    for (agent, row) in rows.iter().enumerate() {
        assert_eq!(parsed.chores, row.len());
        let marked = |place: usize| row.as_bytes()[place] == b'd';
        let marks: Vec<bool> = (0..row.len()).map(marked).collect();
        assert_eq!(parsed.marks(agent).collect::<Vec<bool>>(), marks);
        for (chore, &difficult) in marks.iter().enumerate() {
            assert_eq!(parsed.is_difficult(agent, chore), difficult);
        }
        let ones = marks.iter().filter(|&&difficult| difficult).count();
        assert_eq!(parsed.difficult_marks(agent), ones);
    }
}

/// Each number of chores up to a few bytes, and around others that fill them.
fn chores_to_try() -> impl Iterator<Item = usize> {
    let around = [56, 64, 200, 248, 256, 264, 512, 2_000, 2_048];
    let around = around.into_iter().flat_map(|m| m - 1..=m + 1);
    (0..=26).chain(around).chain(3_991..=4_000)
}

#[test]
fn marks_of_random_sheets() {
    let mut random = Random::new(71);
    for chores in chores_to_try() {
        for _ in 0..5 {
            let agents = 1 + random.below(4);
            let rows = random.rows(agents, chores);
            assert_has_rows(&compose::sheet(2, 3, &rows), &rows);
        }
    }
    for mark in ["e", "d"] {
        let rows = vec![mark.repeat(4_000); 32];
        let sheet = compose::sheet(2, 3, &rows);
        assert_has_rows(&sheet, &rows);
        assert_eq!(sheet.len(), MAX_SHEET_BYTES);
    }
}

#[test]
fn any_bit_after_the_last_chore_is_refused() {
    let mut random = Random::new(72);
    for chores in chores_to_try() {
        let agents = 1 + random.below(3);
        let sheet = random.sheet(agents, chores);
        let bits = 8 * row_bytes(chores);
        // In every row, and in each the last mark before them.
        for agent in 0..agents {
            for place in chores.saturating_sub(1)..bits {
                let mut changed = sheet.clone();
                changed[HEADER_BYTES + (agent * bits + place) / 8] ^= 1 << (7 - place % 8);
                let expected = (place >= chores).then_some(refusal::BIT);
                assert_eq!(Sheet::parse(&changed).err(), expected, "{agent} {place}");
            }
        }
    }
}

#[test]
fn one_bit_is_one_mark() {
    let mut random = Random::new(73);
    for chores in 1..=26 {
        let rows = random.rows(3, chores);
        let sheet = compose::sheet(2, 3, &rows);
        for (agent, chore) in (0..3).flat_map(|i| (0..chores).map(move |r| (i, r))) {
            let mut changed = sheet.clone();
            let byte = HEADER_BYTES + agent * row_bytes(chores) + chore / 8;
            changed[byte] ^= 0x80 >> (chore % 8);
            let mut marks = rows.clone();
            let other = if rows[agent].as_bytes()[chore] == b'd' {
                "e"
            } else {
                "d"
            };
            marks[agent].replace_range(chore..=chore, other);
            assert_has_rows(&changed, &marks);
        }
    }
}

#[test]
fn lengths() {
    for (chores, bytes) in [
        (0, 0),
        (1, 1),
        (7, 1),
        (8, 1),
        (9, 2),
        (16, 2),
        (17, 3),
        (256, 32),
        (3_992, 499),
        (3_993, 500),
        (4_000, 500),
    ] {
        for agents in [1, 2, 32] {
            let header = compose::header(agents, chores, 1, 2).to_vec();
            let of_marks = |marks: usize| [&header[..], &vec![0; marks]].concat();
            let exact = agents * bytes;
            assert!(Sheet::parse(&of_marks(exact)).is_ok());
            // A byte more or less, a row more or less, and one byte for each mark.
            for other in [
                exact + 1,
                exact + bytes,
                exact.saturating_sub(1),
                exact - bytes,
            ] {
                let refused = (other != exact).then_some(refusal::LENGTH);
                assert_eq!(Sheet::parse(&of_marks(other)).err(), refused);
            }
            let unpacked = agents * chores;
            let refused = (unpacked != exact).then_some(refusal::LENGTH);
            assert_eq!(Sheet::parse(&of_marks(unpacked)).err(), refused);
        }
    }
}

#[test]
fn a_wrong_length_comes_before_a_set_bit() {
    let mut sheet = c();
    sheet[8] |= 1;
    assert_eq!(share(&sheet), Err(4));
    assert_eq!(share(&[&sheet[..], &[0]].concat()), Err(5));
    assert_eq!(share(&[&sheet[..8], &[1, 1]].concat()), Err(5));
    // Also where the first row has a bit, and the last one none.
    let mut sheet = c();
    sheet[7] |= 1;
    assert_eq!(share(&sheet), Err(4));
    assert_eq!(share(&sheet[..8]), Err(5));
}

#[test]
fn sheets_of_one_byte_a_mark_are_not_read() {
    let old = |chores: u8, rows: &[u8]| [&[2, chores, 0, 1, 0, 3], rows].concat();
    assert_eq!(share(&old(5, b"eeeeedddde")), Err(5));
    assert_eq!(share(&old(20, &[b'e'; 40])), Err(2));
    assert_eq!(share(&old(0, b"")), Err(5));
}
