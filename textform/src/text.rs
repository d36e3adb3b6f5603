//! Reads the text form; the crate's front page tells its rules.

use crate::book;
use crate::draft::Draft;
use crate::lines::{at, lines_of, Fault};
use crate::sheet::{Sheet, MAX_SHEETS};

/// The sheets of a text, all within the limits of a book.
pub fn read(bytes: &[u8]) -> Result<Vec<Sheet>, Fault> {
    let mut reader = Reader::default();
    for line in lines_of(bytes)? {
        if let [word, rest @ ..] = without_comment(&line.words) {
            reader.take(line.number, word, rest)?;
        }
    }
    reader.close()?;
    if reader.sheets.is_empty() {
        let reason = "there is no sheet; one begins with `sheet TITLE`";
        return Err(Fault::new(1, reason));
    }
    book::check_length(&reader.sheets)?;
    Ok(reader.sheets)
}

/// The words before the comment.
fn without_comment<'a, 'b>(words: &'a [&'b str]) -> &'a [&'b str] {
    if words[0].starts_with('#') {
        return &[];
    }
    let end = words.iter().position(|&word| word == "#");
    &words[..end.unwrap_or(words.len())]
}

/// The sheets read so far, and the one whose lines are being read.
#[derive(Default)]
struct Reader {
    sheets: Vec<Sheet>,
    draft: Option<Draft>,
}

impl Reader {
    fn take(&mut self, line: usize, word: &str, rest: &[&str]) -> Result<(), Fault> {
        let rest = rest.join(" ");
        match word.to_ascii_lowercase().as_str() {
            "sheet" => self.open(line, rest),
            "weights" => self.draft(line)?.weights(&rest).map_err(at(line)),
            "reel" => self.draft(line)?.reel(&rest).map_err(at(line)),
            "person" => self.draft(line)?.person(&rest).map_err(at(line)),
            _ => Err(Fault::new(
                line,
                format!("unknown word `{word}`; a line begins with sheet, weights, reel or person"),
            )),
        }
    }

    fn open(&mut self, line: usize, title: String) -> Result<(), Fault> {
        self.close()?;
        if self.sheets.len() == MAX_SHEETS {
            let reason = format!("a book has at most {MAX_SHEETS} sheets");
            return Err(Fault::new(line, reason));
        }
        self.draft = Some(Draft::new(line, title));
        Ok(())
    }

    fn close(&mut self) -> Result<(), Fault> {
        if let Some(draft) = self.draft.take() {
            self.sheets.push(draft.finish()?);
        }
        Ok(())
    }

    fn draft(&mut self, line: usize) -> Result<&mut Draft, Fault> {
        let reason = "this line belongs to no sheet; one begins with `sheet TITLE`";
        self.draft.as_mut().ok_or_else(|| Fault::new(line, reason))
    }
}
