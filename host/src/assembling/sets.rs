//! File sets with a list and a URL, the kinds by turns.

use super::case::Case;
use super::links::long_path;
use super::texts::{Manner, Writer};
use super::timed::noted;
use crate::exhaustive::Exhaustive;
use crate::generate::{damage, straddling_of};
use crate::indexed::host_name;
use crate::random::Random;
use crate::walking::lines::few;
use crate::walking::links::name;
use crate::walking::set::{FileSet, OwnFile};

/// Whole lines: every way through a member.
const LINES: [&str; 15] = [
    "a", "", "# A", "# B", "## C", "###### D", "#tag", "```", "~~~", "<!--", "-->", "# Contents",
    "[w](b) [w](c#k)", " \t", "```x [w](b)",
];

pub struct Sets {
    /// Every member of whole lines.
    pub members: Exhaustive,
    random: Random,
    turn: usize,
}

impl Sets {
    pub fn new(seed: u64) -> Self {
        let members = Exhaustive::new(LINES.to_vec(), "\n");
        Sets { members, random: Random::new(seed), turn: 0 }
    }

    pub fn next(&mut self) -> Case {
        self.turn += 1;
        let random = &mut self.random;
        match self.turn % 16 {
            0 | 1 => of_lines(self.members.next(), lines(random), random),
            2 => of_lines(lines(random), lines(random), random),
            3 => many(random),
            4 => colliding(random),
            5 => damaged(some(random), random),
            6 => ill_formed(some(random), random),
            7 => long_paths(random),
            8 if random.one_in(3) => across_blocks(random),
            9 if random.one_in(100) => large(random),
            _ => some(random),
        }
    }
}

fn lines(random: &mut Random) -> Vec<u8> {
    few(&LINES, random)
}

/// Two members, with a title before or behind their lines or with none more.
fn of_lines(a: Vec<u8>, b: Vec<u8>, random: &mut Random) -> Case {
    let mut titled = |text: Vec<u8>, title: &str| match random.below(4) {
        0 => [&text[..], b"\n# ", title.as_bytes(), b"\n"].concat(),
        1 | 2 => [b"# ", title.as_bytes(), b"\n", &text[..]].concat(),
        _ => text,
    };
    let [a, b] = [titled(a, "T"), titled(b, "U")];
    let set = FileSet::of(&[(b"a".to_vec(), a), (b"b".to_vec(), b)]);
    let list = random.pick(&["a", "a b", "b a", "a b a"]);
    let list: Vec<&[u8]> = list.split(' ').map(str::as_bytes).collect();
    Case::of(set, &list, url(random).as_bytes())
}

/// With none, one and more slashes at the end.
const URLS: [&str; 8] =
    ["https://h", "https://h/", "https://h//", "https://h/a/b///", "h//a", "/", "////", "a#b/"];

pub fn url(random: &mut Random) -> String {
    match random.below(12) {
        0 => "x".repeat(random.within(200, 255)),
        1 => "x".repeat(random.within(1, 200)) + &"/".repeat(random.within(1, 55)),
        2 => String::from_utf8(host_name(false, random)).expect("good names are ASCII"),
        _ => random.pick(&URLS).to_string(),
    }
}

/// What the texts of a case hold, with a fault or two in some cases.
pub fn manner(random: &mut Random) -> Manner {
    Manner {
        levels: random.pick(&[1, 2, 2, 3, 4, 6, 6, 6]),
        shared: random.one_in(6),
        untitled: random.one_in(8),
        contents: random.one_in(3),
        torn: random.one_in(5),
        bare: random.one_in(8),
    }
}

/// The list of a case, by the numbers of its files: all in order, or some in any
/// order, now and then repeated.
fn listed(files: usize, lines: usize, random: &mut Random) -> Vec<usize> {
    match random.below(4) {
        _ if files == 0 => Vec::new(),
        0 => (0..lines).map(|_| random.below(files)).collect(),
        1 => (0..lines).map(|at| (files - 1).saturating_sub(at % files)).collect(),
        _ => (0..lines).map(|at| at % files).collect(),
    }
}

/// Files with these names, and a list of so many lines.
fn built(names: &[String], lines: usize, manner: Manner, random: &mut Random) -> Case {
    let mut files: Vec<OwnFile> = Vec::new();
    for (number, file) in names.iter().enumerate() {
        let text = Writer { manner, number, file, names, random }.text();
        files.push((file.clone().into_bytes(), text));
    }
    laid_out(files, lines, random)
}

fn laid_out(files: Vec<OwnFile>, lines: usize, random: &mut Random) -> Case {
    let members = files.len();
    of_members(files, members, lines, random)
}

/// The first files are members.
pub fn of_members(files: Vec<OwnFile>, members: usize, lines: usize, random: &mut Random) -> Case {
    let list = listed(members, lines, random);
    let list: Vec<&[u8]> = list.into_iter().map(|at| &files[at].0[..]).collect();
    Case::of(FileSet::laid_out(&files, random), &list, url(random).as_bytes())
}

pub fn names(count: usize, random: &mut Random) -> Vec<String> {
    (0..count).map(|at| name(at, random)).collect()
}

fn some(random: &mut Random) -> Case {
    let count = random.within(1, 5);
    let lines = match random.below(16) {
        0 => 0,
        1..=3 => random.within(1, count + 3),
        _ => count,
    };
    let manner = manner(random);
    built(&names(count, random), lines, manner, random)
}

/// Up to 64 files and list lines, mostly with no fault.
fn many(random: &mut Random) -> Case {
    let most = random.pick(&[16, 64, 64]);
    let (count, lines) = (random.within(1, most), random.within(1, most));
    let lines = random.pick(&[count, count, lines, 64]);
    let mut manner = manner(random);
    manner.levels = random.within(1, 4);
    manner.bare |= !random.one_in(4);
    (manner.shared, manner.untitled) = (random.one_in(16), random.one_in(16));
    built(&names(count, random), lines, manner, random)
}

/// Members that share anchors here and there, and have faults behind these.
fn colliding(random: &mut Random) -> Case {
    let count = random.within(2, 6);
    let lines = count + random.below(3);
    let untitled = random.one_in(4);
    let levels = random.within(1, 6);
    let manner =
        Manner { levels, shared: true, untitled, bare: random.one_in(4), ..manner(random) };
    built(&names(count, random), lines, manner, random)
}

/// Names of 255 bytes and near it, in directories and out of them, and links to them.
fn long_paths(random: &mut Random) -> Case {
    let mut names = names(2, random);
    for at in 0..2 {
        let dir = random.pick(&["", "docs/", "docs/b/"]);
        let length = random.within(253, 255) - dir.len();
        names.push(format!("{dir}{at:x>length$}"));
    }
    let mut files: Vec<OwnFile> = Vec::new();
    for (number, file) in names.iter().enumerate() {
        let manner = Manner { levels: 1, ..Manner::default() };
        let mut text = Writer { manner, number, file, names: &names, random }.text();
        for _ in 0..random.below(4) {
            text.extend(format!("\n[w]({})", long_path(file, random)).bytes());
        }
        files.push((file.clone().into_bytes(), text));
    }
    laid_out(files, 4, random)
}

/// A case of another kind, its bytes damaged in a few places.
pub fn damaged(mut case: Case, random: &mut Random) -> Case {
    let mut files = case.set.own_files();
    for _ in 0..random.within(1, 3) {
        let at = random.below(files.len());
        let text = &mut files[at].1;
        damage(random, text);
        if !random.one_in(16) {
            text.iter_mut().for_each(|byte| *byte &= 0x7F);
        }
    }
    case.set = FileSet::of(&files);
    case
}

/// A case of another kind, with one or two of the faults 1 to 7 and 14.
pub fn ill_formed(mut case: Case, random: &mut Random) -> Case {
    for _ in 0..random.within(1, 2) {
        match random.below(12) {
            6 => case.url = host_name(true, random),
            7 => drop(case.list.pop()),
            8 => case.list = case.list.repeat(random.within(12, 66)),
            9..=11 => spoil_name(&mut case.list, random),
            kind => case.set.spoil(kind, random),
        }
    }
    case
}

/// A list line that names no record, or nearly one.
fn spoil_name(list: &mut Vec<u8>, random: &mut Random) {
    let ends = list.iter().enumerate().filter(|(_, byte)| **byte == b'\n').map(|(at, _)| at);
    let starts: Vec<usize> = std::iter::once(0).chain(ends.map(|at| at + 1)).collect();
    let at = random.pick(&starts);
    let line = random.pick(&["zz\n", "\n", "a", " ", "/", "\r\n", "\u{e9}\n"]);
    list.splice(at..at, line.bytes());
}

/// What can stand across the ends of blocks.
const ACROSS: [&[u8]; 20] = [
    b"](", b")", b"[w](b)", b"[w](/a#k)", b"[w](x)", b"\n# A\n", b"\n## B \n", b"\n# C",
    b"\n```\n", b"\n~~~\n", b"\n<!--\n", b"-->", b"\n# Contents\n", b"\n#tag\n", b"\n \n",
    b"mailto:", b"://", b"\r\n", b"#", b"\n\n",
];

fn across_blocks(random: &mut Random) -> Case {
    let [a, b] = [(); 2].map(|()| {
        let mut text = straddling_of(&ACROSS, random);
        text.iter_mut().for_each(|byte| *byte &= 0x7F);
        text
    });
    of_lines(a, b, random)
}

/// Members of notes.
fn large(random: &mut Random) -> Case {
    let names: Vec<String> = (0..random.within(1, 6)).map(|at| format!("docs/{at}.md")).collect();
    let mut files: Vec<OwnFile> = Vec::new();
    for (number, file) in names.iter().enumerate() {
        let text = noted(number, names.len(), random.within(200, 12_000), random);
        files.push((file.clone().into_bytes(), text));
    }
    laid_out(files, names.len(), random)
}
