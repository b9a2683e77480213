//! What an assembly has to answer. Texts and faults are those of the Rust's
//! `assembly::assemble`; its messages are taken apart into number and places. Of L,
//! which the Rust does not have, the model tells, and of the anchors of headings with a
//! run of underscores that stays.

use doc_gen::assembly::{self, Member};

use super::case::Case;
use super::model::{source, walk};
use crate::walking::expected::{Expected, agreed, agreed_but_for_underscores};
use crate::walking::set::{File, Handed, ascii};
use crate::walking::source::Source;
use crate::walking::steps::{End, Fault, Place, Walk};

/// The refusals of an assembly.
pub const REFUSALS: [u64; 13] = [1, 2, 3, 4, 5, 6, 7, 8, 14, 16, 17, 18, 19];

/// The members, as the Rust takes them.
pub fn members(case: &Case) -> Vec<Member> {
    rust_members(&case.set.files(), &case.members())
}

fn rust_members(files: &[File], members: &[usize]) -> Vec<Member> {
    let member = |&record: &usize| {
        let [path, text] = [files[record].0, files[record].1].map(|part| ascii(part).to_string());
        Member { path, text }
    };
    members.iter().map(member).collect()
}

/// What members, given by their records counted from 0, have to become, and where that
/// comes from.
pub fn assembled(files: &[File], members: &[usize], url: &[u8]) -> Result<(End, Source), String> {
    let (rust, source) = (rust(files, members, url), source(files, members));
    if source == Source::Rust {
        return Ok((rust, source));
    }
    let model = walk(files, members, url).end;
    agreed_but_for_underscores(&model, &rust)?;
    Ok((model, source))
}

fn rust(files: &[File], members: &[usize], url: &[u8]) -> End {
    match assembly::assemble(&rust_members(files, members), ascii(url)) {
        Ok(text) => End::Text(text.into_bytes()),
        Err(message) => match taken_apart(&message, files) {
            Some(fault) => End::Fault(fault),
            None => panic!("no number is known for {message:?}"),
        },
    }
}

fn taken_apart(message: &str, files: &[File]) -> Option<Fault> {
    untitled(message, files).or_else(|| past(message, files)).or_else(|| shared(message, files))
}

/// `PATH: no leading H1, ..`
fn untitled(message: &str, files: &[File]) -> Option<Fault> {
    let path = message.strip_suffix(": no leading H1, so the member has no title to sit under")?;
    let record = files.iter().position(|(name, _)| *name == path.as_bytes())?;
    Some(Fault::at(18, Place { file: record + 1, line: 0 }))
}

/// `PATH:LINE: 'TEXT' is H6 and would become H7, which .. no room for.` No name that is
/// made here holds `: '`.
fn past(message: &str, files: &[File]) -> Option<Fault> {
    let known = message.contains(", which markdown has no room for.\n  Its member's headings");
    let place = |(at, (name, _)): (usize, &File)| {
        let (line, _) = message.strip_prefix(ascii(name))?.strip_prefix(':')?.split_once(": '")?;
        Some(Place { file: at + 1, line: line.parse().ok()? })
    };
    let place = files.iter().enumerate().find_map(place)?;
    known.then(|| Fault::at(16, place))
}

/// `'TEXT' is a heading in both OTHER:LINE and PATH:LINE.`, read from its end. No name
/// that is made here holds ` and ` or ` both `.
fn shared(message: &str, files: &[File]) -> Option<Fault> {
    const END: &str = ".\n  A link to one of them would land on the other, so rename one.";
    let (rest, place) = last_place(message.strip_suffix(END)?, " and ", files)?;
    let (_, second) = last_place(rest, " is a heading in both ", files)?;
    Some(Fault { number: 19, place, second })
}

/// What stands before the words, and the place behind them that ends the message.
fn last_place<'a>(message: &'a str, words: &str, files: &[File]) -> Option<(&'a str, Place)> {
    let (rest, line) = message.rsplit_once(':')?;
    let before = |(at, (name, _)): (usize, &File)| {
        Some((at + 1, rest.strip_suffix(ascii(name))?.strip_suffix(words)?))
    };
    let (file, before) = files.iter().enumerate().find_map(before)?;
    Some((before, Place { file, line: line.parse().ok()? }))
}

/// What a case has to answer at any limits. Says where the model and the Rust differ.
pub fn expected(case: &Case) -> Result<Expected, String> {
    expected_of(case, walked)
}

/// The same for another walk of a list.
pub fn expected_of(
    case: &Case,
    walked: impl FnOnce(&Case) -> Result<(Walk, Source), String>,
) -> Result<Expected, String> {
    let (walk, source) = match case.refusal() {
        // 8, which limits give, comes before it.
        Some([_, 14, _, line, ..]) => {
            let place = Place { file: 0, line: line as usize };
            (Walk::ended(End::Fault(Fault::at(14, place))), Source::Refusals)
        }
        Some(answer) => return Ok(Expected::refused(answer)),
        None => walked(case)?,
    };
    let texts = case.set.files().len() + case.lines();
    Ok(Expected { refused: None, walk, source, texts })
}

fn walked(case: &Case) -> Result<(Walk, Source), String> {
    let (files, members) = (case.set.files(), case.members());
    let walk = walk(&files, &members, &case.url);
    let (end, source) = assembled(&files, &members, &case.url)?;
    agreed(&walk, &end, 0)?;
    Ok((walk, source))
}
