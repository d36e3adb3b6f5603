//! Texts, results and readers that the tests share.

// Not every test file uses all of it.
#![allow(dead_code)]

use textform::book;
use textform::instance::Instance;
use textform::lines::Fault;
use textform::result::{self, BookResult, Told};
use textform::sheet::Sheet;
use textform::text;

pub const SHEET_C: &str = include_str!("../../../examples/sheet-c.txt");
pub const FESTIVAL: &str = include_str!("../../../examples/festival.txt");

/// What `shares` prints for the book of sheet C.
pub const RESULT_OF_C: &str = "\
sheet 1 moves 3 cuts 1
owners 2 2 1 1 2
prices 3 3 3 3 1
total moves 3 cuts 1
";

pub const NAMES_OF_C: &str = "\
Sheet 1: C
  Ada: 2 reels, price 6
    Harbour, reel 3 (easy, price 3)
    Salt Road, reel 1 (easy, price 3)
  Boris: 3 reels, price 7
    Harbour, reel 1 (difficult, price 3)
    Harbour, reel 2 (difficult, price 3)
    Salt Road, reel 2 (easy, price 1)
  3 moves, 1 price cut

Total: 3 moves, 1 price cut
";

/// What `why` prints for the book of sheet C.
pub const RUN_OF_C: &str = "\
sheet 1 moves 3 cuts 1
opening 1 1 1 1 1
reel 5 from 1 to 2 round 1 step 2
reel 1 from 1 to 2 round 2 step 2
reel 2 from 1 to 2 round 2 step 2
owners 2 2 1 1 2
prices 3 3 3 3 1
total moves 3 cuts 1
";

pub const WHY_OF_C: &str = "\
Sheet 1: C
  Harbour, reel 1: Boris
    opened with Ada
    to Boris in round 2
  Harbour, reel 2: Boris
    opened with Ada
    to Boris in round 2
  Harbour, reel 3: Ada
    opened with Ada, and stayed
  Salt Road, reel 1: Ada
    opened with Ada, and stayed
  Salt Road, reel 2: Boris
    opened with Ada
    to Boris in round 1
  3 moves, 1 price cut

Total: 3 moves, 1 price cut
";

/// The sheets of a text that must be readable.
pub fn sheets(text: &str) -> Vec<Sheet> {
    text::read(text.as_bytes()).expect("the text can be read")
}

/// The book of a text that must be readable.
pub fn book(text: &str) -> Vec<u8> {
    let instances: Vec<Instance> = sheets(text).iter().map(Instance::from).collect();
    book::compose(&instances)
}

/// The bodies of a book, by its contents.
pub fn bodies(book: &[u8]) -> Vec<&[u8]> {
    let count = usize::from(book[0]);
    let entries = book[1..1 + 4 * count].chunks(4);
    let mut end = 1 + 4 * count;
    let mut bodies = Vec::new();
    for entry in entries {
        let start = usize::from(entry[0]) * 256 + usize::from(entry[1]);
        let length = usize::from(entry[2]) * 256 + usize::from(entry[3]);
        assert_eq!(start, end);
        end = start + length;
        bodies.push(&book[start..end]);
    }
    assert_eq!(end, book.len());
    bodies
}

/// Weights and rows of letters.
pub type Letters = (u16, u16, Vec<String>);

/// What a packed sheet says, bit by bit. Bits after the last chore must be 0.
pub fn unpack(body: &[u8]) -> Letters {
    let number = |place: usize| u16::from(body[place]) * 256 + u16::from(body[place + 1]);
    let chores = usize::from(number(1));
    let width = 8 * (chores / 8 + usize::from(chores % 8 > 0));
    let bits: Vec<bool> = (56..8 * body.len())
        .map(|bit| body[bit / 8] & (128 >> (bit % 8)) != 0)
        .collect();
    assert_eq!(bits.len(), usize::from(body[0]) * width);
    let row = |agent: usize| {
        let (marks, rest) = bits[agent * width..][..width].split_at(chores);
        assert!(!rest.contains(&true));
        let letters = marks.iter().map(|&bit| if bit { 'd' } else { 'e' });
        letters.collect()
    };
    let rows = (0..usize::from(body[0])).map(row).collect();
    (number(3), number(5), rows)
}

/// A sheet as it was, a byte for each mark.
pub fn old_sheet((easy, difficult, rows): &Letters) -> Vec<u8> {
    let sizes = [rows.len() as u8, rows[0].len() as u8];
    let weights = [easy.to_be_bytes(), difficult.to_be_bytes()].concat();
    [&sizes, &weights[..], rows.concat().as_bytes()].concat()
}

/// A book of these bodies, whatever they are.
pub fn book_of(bodies: &[Vec<u8>]) -> Vec<u8> {
    let mut start = 1 + 4 * bodies.len();
    let mut contents = vec![bodies.len() as u8];
    for body in bodies {
        contents.extend((start as u16).to_be_bytes());
        contents.extend((body.len() as u16).to_be_bytes());
        start += body.len();
    }
    [contents, bodies.concat()].concat()
}

/// A result of `shares` with names, or its fault.
pub fn names(text: &str, result: &str) -> Result<String, Fault> {
    with_names(text, result, textform::names::print)
}

/// A result of `why` with names, or its fault.
pub fn why(text: &str, result: &str) -> Result<String, Fault> {
    with_names(text, result, textform::why::print)
}

fn with_names<T: Told>(
    text: &str,
    result: &str,
    print: fn(&[Sheet], &BookResult<T>) -> String,
) -> Result<String, Fault> {
    let sheets = sheets(text);
    let result = result::read(result.as_bytes(), &sheets)?;
    Ok(print(&sheets, &result))
}

/// A sheet of so many agents and chores, everything easy.
pub fn plain_sheet(agents: usize, chores: usize) -> String {
    let mut text = "sheet\nweights 1 3\n".to_string();
    for chore in 1..=chores {
        text += &format!("reel R{chore}\n");
    }
    for agent in 1..=agents {
        text += &format!("person P{agent}: {}\n", "e".repeat(chores));
    }
    text
}

pub fn assert_fault(fault: Fault, line: usize, part: &str) {
    assert_eq!(fault.line, line, "{fault}");
    assert!(fault.reason.contains(part), "{fault}");
    assert_eq!(fault.to_string(), format!("line {line}: {}", fault.reason));
}
