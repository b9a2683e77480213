//! What a fill has to answer. Texts and faults are those of the Rust's
//! `fragment::fill`; its messages are taken apart into number and place. Of the
//! limits, which the Rust does not have, the model tells.

use std::cell::Cell;

use doc_gen::fragment::{self, Files};

use super::case::Case;
use super::model::walk;
use crate::walking::expected::{Expected, agreed};
use crate::walking::set::{File, Handed, ascii};
use crate::walking::source::Source;
use crate::walking::steps::{End, Fault, Place};

/// The most files that a walk takes in, if nothing else is said.
pub const MOST_TAKEN: usize = 1_000;

/// What the Rust is told of a name that no record bears.
const ABSENT: &str = "not in the index";

/// What the Rust is told when it reads too often.
const TOO_OFTEN: &str = "read too often";

/// Reads from the index up to `most` times, and counts.
pub struct Reader<'a> {
    files: &'a [File<'a>],
    reads: Cell<usize>,
    most: usize,
}

impl Files for Reader<'_> {
    fn read(&self, path: &str) -> Result<String, String> {
        let found = self.files.iter().find(|(name, _)| *name == path.as_bytes());
        let (_, text) = found.ok_or(ABSENT)?;
        self.reads.set(self.reads.get() + 1);
        if self.reads.get() > self.most {
            return Err(TOO_OFTEN.to_string());
        }
        Ok(ascii(text).to_string())
    }
}

impl<'a> Reader<'a> {
    pub fn of(files: &'a [File<'a>], most: usize) -> Self {
        Reader { files, reads: Cell::new(0), most }
    }

    /// How many files were read.
    pub fn reads(&self) -> usize {
        self.reads.get()
    }

    /// What the Rust gives for a host, which is the file of this number.
    pub fn fill(&self, file: usize, name: &str, text: &str) -> End {
        match fragment::fill(name, text, self) {
            Ok(Some(text)) => End::Text(text.into_bytes()),
            Ok(None) => End::NoRegion,
            Err(message) => taken_apart(&message, (file, name), self.files),
        }
    }
}

/// A message is a path, a line and what is wrong. Only the host's name may hold a
/// colon, since no region can name such a file.
fn taken_apart(message: &str, host: (usize, &str), files: &[File]) -> End {
    let names = files.iter().map(|(name, _)| ascii(name)).enumerate();
    let named = names.filter(|(_, name)| !name.contains(':')).map(|(at, name)| (at + 1, name));
    let read = |(file, name): (usize, &str)| {
        let (line, wrong) = message.strip_prefix(name)?.strip_prefix(':')?.split_once(": ")?;
        let number = number(wrong)?;
        Some((number, Place { file, line: line.parse().ok()? }))
    };
    match std::iter::once(host).chain(named).find_map(read) {
        Some((0, _)) => End::Unfinished,
        Some((number, place)) => End::Fault(Fault::at(number, place)),
        None => panic!("no number is known for {message:?}"),
    }
}

/// Document 01's number; 0 where the Rust read too often. Paths hold no LF, and in
/// a message of 16 one stands behind the heading's text.
fn number(wrong: &str) -> Option<u64> {
    let starts = |part: &str| wrong.starts_with(part);
    match wrong {
        TOO_OFTEN => Some(0),
        ABSENT => Some(14),
        _ if starts("a fragment region inside another fragment region: ") => Some(9),
        _ if starts("a fragment marker sharing its line: ") => Some(10),
        _ if starts("fragment region '") && wrong.contains("' is never closed by '") => Some(11),
        _ if starts("the marker says peer, but no heading sits above it") => Some(12),
        _ if wrong.contains(", which markdown has no room for.\n") => Some(16),
        _ if starts("'") && wrong.contains("' is assembled from itself: ") => Some(13),
        _ => None,
    }
}

/// What a case has to answer at any limits. Says where the model and the Rust differ.
pub fn expected(case: &Case) -> Result<Expected, String> {
    expected_within(case, MOST_TAKEN)
}

/// The same for walks that take in `most` files.
pub fn expected_within(case: &Case, most: usize) -> Result<Expected, String> {
    if let Some(answer) = case.refusal() {
        return Ok(Expected::refused(answer));
    }
    let files = case.set.files();
    let walk = walk(&files, &case.name, &case.text, most);
    let reader = Reader::of(&files, most);
    let end = reader.fill(0, ascii(&case.name), ascii(&case.text));
    agreed(&walk, &end, reader.reads())?;
    Ok(Expected { refused: None, walk, source: Source::Rust, texts: files.len() })
}
