//! The walk of an assembly, written from document 01 ("Assembly and book"), on lists
//! of lines. Nothing of the Rust is called here.

use std::collections::HashMap;

use crate::walking::naming::{anchor, directory, path_of, relinked, resolve};
use crate::walking::reading::{
    Heading, headings_and_quoted, lines, shifted, without_blank_end, without_contents,
};
use crate::walking::set::File;
use crate::walking::source::Source;
use crate::walking::steps::{End, Fault, Place, Step, Walk};

/// The walk of members, given by their records counted from 0.
pub fn walk(files: &[File], members: &[usize], url: &[u8]) -> Walk {
    let mut steps = Vec::new();
    let end = match assembled(files, members, url, &mut steps) {
        Ok(text) => End::Text(text),
        Err(fault) => End::Fault(fault),
    };
    Walk { steps, end, deepest: 0 }
}

fn assembled(
    files: &[File],
    members: &[usize],
    url: &[u8],
    steps: &mut Vec<Step>,
) -> Result<Vec<u8>, Fault> {
    let members = prepared(files, members)?;
    compare(&members)?;
    // For a name listed twice the later title serves links.
    let titles = members.iter().map(|member| (member.name, anchor(member.title())));
    let titles: HashMap<&[u8], Vec<u8>> = titles.collect();
    let mut text = Vec::new();
    let mut place = Place::default();
    for (at, member) in members.iter().enumerate() {
        let emitted = member.emitted(&titles, url)?;
        text.extend(if at > 0 { &b"\n\n---\n\n"[..] } else { b"" });
        text.extend(emitted.join(&b'\n'));
        place = Place { file: member.file, line: 0 };
        steps.push(Step::Sized { length: text.len(), place });
    }
    text.push(b'\n');
    steps.push(Step::Sized { length: text.len(), place });
    Ok(text)
}

/// What members are held to, by their headings once they are prepared. Where one has no
/// title, no anchor is made.
pub fn source(files: &[File], members: &[usize]) -> Source {
    let Ok(members) = prepared(files, members) else { return Source::Rust };
    Source::of(members.iter().flat_map(|member| &member.headings).map(|heading| heading.text))
}

fn prepared<'a>(files: &[File<'a>], members: &[usize]) -> Result<Vec<Member<'a>>, Fault> {
    members.iter().map(|&record| Member::prepared(record + 1, files[record])).collect()
}

/// Two members of different names share no anchor.
fn compare(members: &[Member]) -> Result<(), Fault> {
    let mut seen: HashMap<Vec<u8>, Vec<(&[u8], Place)>> = HashMap::new();
    for member in members {
        let mut own: HashMap<Vec<u8>, Place> = HashMap::new();
        for heading in &member.headings {
            let anchor = anchor(heading.text);
            let place = Place { file: member.file, line: heading.line + 1 };
            let earlier = seen.get(&anchor).into_iter().flatten();
            if let Some(&(_, second)) = earlier.into_iter().find(|(name, _)| *name != member.name) {
                return Err(Fault { number: 19, place, second });
            }
            own.entry(anchor).or_insert(place);
        }
        for (anchor, place) in own {
            seen.entry(anchor).or_default().push((member.name, place));
        }
    }
    Ok(())
}

/// A member once it is prepared.
struct Member<'a> {
    file: usize,
    name: &'a [u8],
    lines: Vec<&'a [u8]>,
    headings: Vec<Heading<'a>>,
    quoted: Vec<bool>,
    /// Which of the headings is the title.
    title: usize,
}

impl<'a> Member<'a> {
    fn prepared(file: usize, (name, text): File<'a>) -> Result<Self, Fault> {
        let lines = without_blank_end(&without_contents(lines(text))).to_vec();
        let (headings, quoted) = headings_and_quoted(&lines);
        let title = headings.iter().position(|heading| heading.level == 1);
        let title = title.ok_or(Fault::at(18, Place { file, line: 0 }))?;
        Ok(Member { file, name, lines, headings, quoted, title })
    }

    fn title(&self) -> &'a [u8] {
        self.headings[self.title].text
    }

    fn emitted(&self, titles: &HashMap<&[u8], Vec<u8>>, url: &[u8]) -> Result<Vec<Vec<u8>>, Fault> {
        let Member { file, name, lines, headings, quoted, title } = self;
        let (before, behind) = (&headings[..*title], &headings[title + 1..]);
        let moved = shifted(lines, &[before, behind].concat(), 2)
            .map_err(|line| Fault::at(16, Place { file: *file, line }))?;
        let dir = directory(name);
        let emitted = moved.into_iter().zip(quoted).map(|(line, quoted)| match quoted {
            true => line,
            false => relinked(&line, |target| rewritten(target, dir, titles, url)),
        });
        Ok(emitted.collect())
    }
}

/// What a link's target becomes.
fn rewritten(target: &[u8], dir: &[u8], titles: &HashMap<&[u8], Vec<u8>>, url: &[u8]) -> Vec<u8> {
    let Some((path, fragment)) = path_of(target) else { return target.to_vec() };
    let resolved = resolve(path, dir);
    match titles.get(&resolved[..]) {
        Some(anchor) if fragment.is_empty() => [b"#", &anchor[..]].concat(),
        Some(_) => fragment.to_vec(),
        None => {
            let slashes = url.iter().rev().take_while(|&&byte| byte == b'/').count();
            [&url[..url.len() - slashes], b"/blob/main/", &resolved, fragment].concat()
        }
    }
}
