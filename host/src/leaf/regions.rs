//! The regions of a text, one after the other from a cursor on.

use std::fmt::{self, Display, Formatter};

use doc_gen::marker::{self, Fragment};
use jilgyemot_host::oracle::{line_starts, path_place};

use super::library::{self, Answer};
use super::{Outcome, one, same};

/// How many regions were found, and how many of them are peers.
#[derive(Default)]
pub struct Regions {
    whole: u64,
    peers: u64,
}

/// A place, and the number of lines before it.
type Cursor = (u64, u64);

/// A region, and its marker lines.
type Answers = [Answer; 2];

impl Regions {
    /// All regions from the text's start on, from a place on, and from the start
    /// of a line on; and what is no cursor.
    pub fn check(&mut self, text: &str, [first, second]: [usize; 2]) -> Outcome {
        let at = first % (text.len() + 1);
        let starts = line_starts(text);
        let line = second % starts.len();
        Ok(self.check_from(text, 0, 0)?
            + self.check_from(text, at, second % (at + 1))?
            + self.check_from(text, starts[line], line)?
            + check_no_cursors(text, at as u64)?)
    }

    /// A case for each region, and one for the answer that there is no more.
    fn check_from(&mut self, text: &str, at: usize, line: usize) -> Outcome {
        let expected = rust_regions(text, at, line);
        for [region, _] in &expected {
            self.whole += u64::from(region[0] > 0);
            self.peers += u64::from(region[0] > 1);
        }
        let cases = expected.len() as u64;
        let what = format!("the regions from place {at}, line {line} on");
        same(&what, expected, leaf_regions(text, (at as u64, line as u64)))?;
        Ok(cases)
    }
}

impl Display for Regions {
    fn fmt(&self, f: &mut Formatter) -> fmt::Result {
        write!(f, "regions: {}, of them {} peers", self.whole, self.peers)
    }
}

/// The regions of the text behind a place, as the Rust finds them.
fn rust_regions(text: &str, at: usize, line: usize) -> Vec<Answers> {
    let text = &text[at..];
    let starts = line_starts(text);
    let found = marker::scan(text).fragments;
    let answers = found.iter().map(|region| numbers(text, &starts, region, at, line));
    answers.chain([[one(0); 2]]).collect()
}

fn numbers(text: &str, starts: &[usize], region: &Fragment, at: usize, line: usize) -> Answers {
    let Fragment { open, close, .. } = *region;
    let kind = if region.peer { 2 } else { 1 };
    let (path, path_end) = path_place(text, starts, region);
    let next = starts.get(close + 1).copied().unwrap_or(text.len());
    let closer = line + close + 1;
    let told = [kind, at + path, at + path_end, at + next, closer, 0];
    let lines = [kind, line + open + 1, at + starts[open], closer, at + starts[close], 0];
    [told, lines].map(|numbers| numbers.map(|number| number as u64))
}

fn leaf_region(text: &str, (at, line): Cursor) -> Answers {
    let text = text.as_bytes();
    [library::region(text, at, line), library::region_lines(text, at, line)]
}

/// The regions as the leaves find them, each from the cursor that the one
/// before it told. A text has fewer regions than bytes.
fn leaf_regions(text: &str, (mut at, mut line): Cursor) -> Vec<Answers> {
    let mut found = Vec::new();
    loop {
        let answers = leaf_region(text, (at, line));
        found.push(answers);
        let [kind, _, _, next, before, _] = answers[0];
        if kind == 0 || found.len() > text.len() {
            return found;
        }
        (at, line) = (next, before);
    }
}

/// Places past the text's end, and more lines than bytes before a place. From
/// none of them on is there a region.
fn check_no_cursors(text: &str, at: u64) -> Outcome {
    let past = text.len() as u64 + 1;
    let most = u64::MAX;
    let cursors: [Cursor; 8] = [
        (past, 0),
        (past, past),
        (1 << 32, 0),
        (most, 0),
        (most, most),
        (at, at + 1),
        (0, most),
        (0, 1 << 32),
    ];
    let leaf = cursors.map(|cursor| leaf_region(text, cursor));
    same(&format!("no cursors: {cursors:?}"), [[one(0); 2]; 8], leaf)
}
