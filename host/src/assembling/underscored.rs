//! Underscores in the headings of a case: runs that stay in an anchor, and such that go.

use super::case::Case;
use super::texts::STAYING;
use crate::random::Random;
use crate::walking::reading::{lines, trimmed};
use crate::walking::set::{FileSet, Handed};

/// In place of the word that has a run that stays.
const GOING: [&str; 4] = ["_z1", "z1_", "z_.", "z _"];

/// What is put before a heading's text or behind it.
const PARTS: [&str; 22] = [
    "_", "__", "_1", "__x", "a_", "7__", " a_[_b](u)_c ", "[a]_1", " a_[b", "[a](u_1)_b", "*q*_1",
    "q_`1`", "a_[](u)_1", " a_b__c___7", "_u_", " _ ", " _1", "a_ ", "[_]", "[a_](u)", "]_1",
    "-_7",
];

/// Headings of which some share an anchor.
const SPELLINGS: [&str; 20] = [
    "weir_3", "WEIR_3", "[weir](x)_3", "weir_[3]", "*weir_3*", "`Weir_3`", "[weir_3](x)", "weir3",
    "*weir*_3", "weir_`3`", "_weir3_", "[weir](x)3", "weir__3", "weir_[_3](x)", "[weir_](x)_3",
    "[weir_](x)", "weir_", "[weir]_", "weir_ 3", "weir _3",
];

/// Puts underscores into cases, by a random of its own, and takes some out.
pub struct Underscores {
    random: Random,
}

impl Underscores {
    pub fn new(seed: u64) -> Self {
        Underscores { random: Random::new(seed) }
    }

    /// Most cases have no run that stays then.
    pub fn put_into(&mut self, case: Case) -> Case {
        let random = &mut self.random;
        match random.below(16) {
            0 | 1 => changed(case, with_parts, random),
            2 | 3 => changed(case, with_heading, random),
            4 => case,
            _ => without(case, random),
        }
    }
}

fn without(mut case: Case, random: &mut Random) -> Case {
    let contents = &mut case.set.contents;
    for at in 0..contents.len() {
        if contents[at..].starts_with(STAYING.as_bytes()) {
            let going = random.pick(&GOING).as_bytes();
            contents[at..at + going.len()].copy_from_slice(going);
        }
    }
    case
}

/// Two texts in three made into others.
fn changed(case: Case, made: fn(&[u8], &mut Random) -> Vec<u8>, random: &mut Random) -> Case {
    if case.refusal().is_some() {
        return case;
    }
    let mut files = case.set.own_files();
    for (_, text) in &mut files {
        if !random.one_in(3) {
            *text = made(text, random);
        }
    }
    Case { set: FileSet::laid_out(&files, random), ..case }
}

/// Every other line that begins as a heading does, with underscores in its text.
fn with_parts(text: &[u8], random: &mut Random) -> Vec<u8> {
    let mut made = Vec::new();
    for line in lines(text) {
        let hashes = line.iter().take_while(|&&byte| byte == b'#').count();
        made.push(match line.split_at(hashes) {
            (b"", _) | (_, b"") => line.to_vec(),
            (hashes, text) if random.one_in(2) => {
                [hashes, b" ", &with_part(trimmed(text), random)].concat()
            }
            _ => line.to_vec(),
        });
    }
    made.join(&b'\n')
}

fn with_part(text: &[u8], random: &mut Random) -> Vec<u8> {
    let part = random.pick(&PARTS).as_bytes();
    match random.below(4) {
        0 => [part, text].concat(),
        1 => text.iter().map(|&byte| if byte == b' ' { b'_' } else { byte }).collect(),
        _ => [text, part].concat(),
    }
}

/// With one more heading, which may be the title.
fn with_heading(text: &[u8], random: &mut Random) -> Vec<u8> {
    let mut lines = lines(text);
    let heading = [random.pick(&["# ", "# ", "## "]), random.pick(&SPELLINGS)].concat();
    let some = random.below(lines.len() + 1);
    lines.insert(random.pick(&[0, 1, some]), heading.as_bytes());
    lines.join(&b'\n')
}
