//! What the stack of a book is measured on.

use crate::Outcome::{self, Accepted, Refused};
use crate::stack_assembly::{names, stations};
use crate::stack_fill::{DEEP, chain, links, region};
use crate::stack_set::{File, input_of_list};
use crate::{Input, KIB};

/// More than any of these books takes in, but for the one that takes in too many.
const AMPLE: u64 = 9_999;

pub fn books() -> Vec<Input> {
    let wide = vec![("a".to_string(), b"# T\n\x80".to_vec())];
    let all = stations(64);
    let mut untitled = member_of_chain("text\n");
    untitled[0].1.drain(..1);
    let mut inputs = vec![
        book("no file, an empty list", &[], &[], 1, 0, Accepted),
        book("a limit of 0", &[], &[], 0, 0, Refused(8)),
        book("a name that is no record's", &[], &["a"], KIB, 0, Refused(14)),
        book("a byte 80 hex", &wide, &["a"], KIB, 0, Refused(5)),
        book("one member, no region", &stations(1), &["0"], KIB, 0, Accepted),
        book("64 members, no region", &all, &names(&all), 64 * KIB, 0, Accepted),
        book("63 members of one file", &hosts(), &names(&hosts()[1..]), 64 * KIB, AMPLE, Accepted),
        deep("64 files deep, links", &member_of_chain(&links()), 1, 64 * KIB, AMPLE, Accepted),
        deep("64 files deep, 64 times", &member_of_chain(""), 64, 256 * KIB, AMPLE, Accepted),
        deep("64 files deep, no title", &untitled, 1, 64 * KIB, AMPLE, Refused(18)),
    ];
    for (name, last, limit, allowance, outcome) in DEEP {
        // The first file is the member, so one fewer is taken in.
        inputs.push(deep(name, &member_of_chain(last), 1, limit, allowance - 1, outcome));
    }
    inputs
}

fn book(
    name: &'static str,
    files: &[File],
    list: &[&str],
    limit: usize,
    allowance: u64,
    outcome: Outcome,
) -> Input {
    input_of_list(name, files, list, limit, &[allowance], outcome)
}

/// The first file, listed so many times.
fn deep(
    name: &'static str,
    files: &[File],
    lines: usize,
    limit: usize,
    allowance: u64,
    outcome: Outcome,
) -> Input {
    book(name, files, &vec!["0"; lines], limit, allowance, outcome)
}

/// A chain of 64 files, the first of which has a title.
fn member_of_chain(last: &str) -> Vec<File> {
    let mut files = chain(64, last);
    files[0].1.splice(..0, b"# Station\n".iter().copied());
    files
}

/// A file with no heading, and 63 that take it in.
fn hosts() -> Vec<File> {
    let host = |(name, mut text): File| {
        text.extend(region("common").bytes());
        (name, text)
    };
    let common = ("common".to_string(), b"text, [w](0#k)\n".to_vec());
    std::iter::once(common).chain(stations(63).into_iter().map(host)).collect()
}
