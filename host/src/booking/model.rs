//! The walk of a book, written from document 01 ("Assembly and book"): the fills of all
//! members, one after the other, and then the assembly of what they give.

use crate::assembling::model::walk as assembly_walk;
use crate::filling::model::Walker;
use crate::walking::set::File;
use crate::walking::steps::{End, Walk};

/// The walk of members, given by their records counted from 0, as far as it takes in
/// `most` files.
pub fn walk(files: &[File], members: &[usize], url: &[u8], most: usize) -> Walk {
    let mut walker = Walker::of(files, most);
    let filled = match filled(&mut walker, files, members) {
        Ok(filled) => filled,
        Err(end) => return walker.ended(end),
    };
    let Walk { steps, end, .. } = assembly_walk(&replaced(files, &filled), members, url);
    let mut walk = walker.ended(end);
    walk.steps.extend(steps);
    walk
}

/// The files with their fills' texts, or their own where these give none.
pub fn replaced<'a>(files: &[File<'a>], filled: &'a [Option<Vec<u8>>]) -> Vec<File<'a>> {
    let texts = files.iter().zip(filled);
    texts.map(|((name, text), filled)| (*name, filled.as_deref().unwrap_or(text))).collect()
}

/// For each file the text that its fill gives, where it is a member and has a region.
fn filled<'a>(
    walker: &mut Walker<'a>,
    files: &[File<'a>],
    members: &[usize],
) -> Result<Vec<Option<Vec<u8>>>, End> {
    let mut filled = vec![None; files.len()];
    for &record in members {
        let (name, text) = files[record];
        filled[record] = walker.fill(record + 1, text, &mut vec![name])?;
    }
    Ok(filled)
}
