//! A sheet whose lines are being read.

use crate::lines::Fault;
use crate::sheet::{are_weights, Agent, Mark, Sheet, MAX_AGENTS, MAX_CHORES, MAX_WEIGHT};
use std::collections::HashSet;

pub struct Draft {
    line: usize,
    title: String,
    weights: Option<(u16, u16)>,
    chores: Vec<String>,
    /// The same titles, to look one up.
    titles: HashSet<String>,
    agents: Vec<Agent>,
}

impl Draft {
    pub fn new(line: usize, title: String) -> Self {
        Draft {
            line,
            title,
            weights: None,
            chores: Vec::new(),
            titles: HashSet::new(),
            agents: Vec::new(),
        }
    }

    /// A line `weights EASY DIFFICULT`.
    pub fn weights(&mut self, rest: &str) -> Result<(), String> {
        if self.weights.is_some() {
            return Err("this sheet already has its weights".to_string());
        }
        self.weights = Some(parse_weights(rest).ok_or_else(|| {
            format!(
                "weights are two whole numbers, easy then difficult, \
                 with 1 <= easy < difficult <= {MAX_WEIGHT}, as in `weights 1 3`"
            )
        })?);
        Ok(())
    }

    /// A line `reel TITLE`.
    pub fn reel(&mut self, title: &str) -> Result<(), String> {
        if title.is_empty() {
            return Err("a reel needs a title, as in `reel Harbour`".to_string());
        }
        if !self.agents.is_empty() {
            return Err("a reel after a person; all reels come before the people".to_string());
        }
        if !self.titles.insert(title.to_string()) {
            return Err(format!("this sheet already has a reel `{title}`"));
        }
        if self.chores.len() == MAX_CHORES {
            return Err(format!("a sheet has at most {MAX_CHORES} reels"));
        }
        self.chores.push(title.to_string());
        Ok(())
    }

    /// A line `person NAME: MARKS`.
    pub fn person(&mut self, rest: &str) -> Result<(), String> {
        let (name, letters) = rest
            .rsplit_once(':')
            .ok_or("a colon goes between name and marks, as in `person Ada: e d e`")?;
        let name = name.trim_end();
        if name.is_empty() {
            return Err("a person needs a name, as in `person Ada: e d e`".to_string());
        }
        if self.agents.iter().any(|other| other.name == name) {
            return Err(format!("this sheet already has a person `{name}`"));
        }
        if self.agents.len() == MAX_AGENTS {
            return Err(format!("a sheet has at most {MAX_AGENTS} people"));
        }
        let marks = parse_marks(name, letters)?;
        self.count_marks(name, marks.len())?;
        let name = name.to_string();
        self.agents.push(Agent { name, marks });
        Ok(())
    }

    fn count_marks(&self, name: &str, marks: usize) -> Result<(), String> {
        let chores = self.chores.len();
        if marks == chores {
            Ok(())
        } else if chores == 0 {
            Err("a person before the reels; all reels come before the people".to_string())
        } else {
            Err(format!(
                "`{name}` needs one mark per reel, {chores} in all, but has {marks}"
            ))
        }
    }

    /// The sheet, if nothing is missing.
    pub fn finish(self) -> Result<Sheet, Fault> {
        let missing = |reason| Fault::new(self.line, reason);
        let (easy, difficult) = self
            .weights
            .ok_or_else(|| missing("this sheet has no weights, as in `weights 1 3`"))?;
        if self.agents.is_empty() {
            return Err(missing("this sheet has no people"));
        }
        Ok(Sheet {
            line: self.line,
            title: self.title,
            easy,
            difficult,
            chores: self.chores,
            agents: self.agents,
        })
    }
}

/// Two weights within their limits, with blanks or a comma between.
fn parse_weights(rest: &str) -> Option<(u16, u16)> {
    let words = rest.split([' ', ',']).filter(|word| !word.is_empty());
    let weights: Vec<u16> = words.map(|word| word.parse().ok()).collect::<Option<_>>()?;
    match weights[..] {
        [easy, difficult] if are_weights(easy, difficult) => Some((easy, difficult)),
        _ => None,
    }
}

fn parse_marks(name: &str, letters: &str) -> Result<Vec<Mark>, String> {
    let letters = letters.chars().filter(|letter| !letter.is_whitespace());
    let marks = letters.zip(1..).map(|(letter, number)| {
        Mark::of(letter)
            .ok_or_else(|| format!("mark {number} of `{name}` is `{letter}`, neither e nor d"))
    });
    marks.collect()
}
