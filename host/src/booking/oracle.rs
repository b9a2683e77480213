//! What a book has to answer. Texts and faults are those of the Rust's `fragment::fill`
//! for each member, and of what these give those that an assembly has. Of the limits,
//! which the Rust does not have, the model tells, and of the files taken in the chains
//! too.

use super::chains::longer_chains;
use super::model::{replaced, walk};
use crate::assembling::case::Case;
use crate::assembling::oracle::{assembled, expected_of};
use crate::filling::oracle::{MOST_TAKEN, Reader};
use crate::walking::expected::{Expected, agreed};
use crate::walking::set::{File, ascii};
use crate::walking::source::Source;
use crate::walking::steps::{End, Walk};

/// The refusals of a book: all of them.
pub const REFUSALS: [u64; 19] = [1, 2, 3, 4, 5, 6, 7, 8, 9, 10, 11, 12, 13, 14, 15, 16, 17, 18, 19];

/// For each file the text that the Rust's fill gives, where it is a member and has a
/// region.
fn filled(reader: &Reader, files: &[File], members: &[usize]) -> Result<Vec<Option<Vec<u8>>>, End> {
    let mut filled = vec![None; files.len()];
    for &record in members {
        let (name, text) = files[record];
        match reader.fill(record + 1, ascii(name), ascii(text)) {
            End::Text(text) => filled[record] = Some(text),
            End::NoRegion => {}
            end => return Err(end),
        }
    }
    Ok(filled)
}

/// What the fills' texts have to become, and where that comes from.
fn joined(reader: &Reader, files: &[File], case: &Case) -> Result<(End, Source), String> {
    let members = case.members();
    let filled = match filled(reader, files, &members) {
        Ok(filled) => filled,
        Err(end) => return Ok((end, Source::Rust)),
    };
    assembled(&replaced(files, &filled), &members, &case.url)
}

/// What a case has to answer at any limits. Says where the model, the Rust and the
/// chains differ.
pub fn expected(case: &Case) -> Result<Expected, String> {
    expected_within(case, MOST_TAKEN)
}

/// The same for books that take in `most` files.
pub fn expected_within(case: &Case, most: usize) -> Result<Expected, String> {
    expected_of(case, |case| walked(case, most))
}

fn walked(case: &Case, most: usize) -> Result<(Walk, Source), String> {
    let (files, members) = (case.set.files(), case.members());
    let walk = walk(&files, &members, &case.url, most);
    let reader = Reader::of(&files, most);
    let (end, source) = joined(&reader, &files, case)?;
    let reads = reader.reads();
    agreed(&walk, &end, reads)?;
    let chains = longer_chains(&files, &members, most);
    if matches!(end, End::Text(_)) && chains != Some(reads) {
        return Err(format!("chains of two or more files: {chains:?}, files read: {reads}"));
    }
    Ok((walk, source))
}
