//! File sets with a list and a URL for a book, the kinds by turns.

use super::texts::Writer;
use crate::assembling::case::Case;
use crate::assembling::sets as assemblies;
use crate::assembling::texts as member;
use crate::exhaustive::Exhaustive;
use crate::filling::case::Case as Fill;
use crate::filling::sets as fills;
use crate::filling::sets::{Misnamed, Targets};
use crate::filling::texts as host;
use crate::random::Random;
use crate::walking::lines::few;
use crate::walking::set::{FileSet, Handed, OwnFile};

/// Whole lines: every way through a member that is filled and assembled.
const LINES: [&str; 13] = [
    "a", "", "# A", "## B", "#tag", "```", "<!--", "-->", "# Contents", "<!--[fragment:a]-->",
    "<!--[fragment:b:peer]-->", "<!--[/]-->", "[w](a) [w](m#k)",
];

pub struct Sets {
    /// Every member of whole lines.
    pub members: Exhaustive,
    assemblies: assemblies::Sets,
    fills: fills::Sets,
    random: Random,
    turn: usize,
}

impl Sets {
    pub fn new(seed: u64) -> Self {
        Sets {
            members: Exhaustive::new(LINES.to_vec(), "\n"),
            assemblies: assemblies::Sets::new(seed),
            fills: fills::Sets::new(seed),
            random: Random::new(seed),
            turn: 0,
        }
    }

    pub fn next(&mut self) -> Case {
        self.turn += 1;
        let random = &mut self.random;
        match self.turn % 16 {
            0 => of_lines(self.members.next(), random),
            1 => of_lines(lines(random), random),
            2 | 3 => self.assemblies.next(),
            4..=6 => self.of_fill(),
            7 => assemblies::damaged(web(random), random),
            8 => assemblies::ill_formed(web(random), random),
            9 if random.one_in(4) => many(random),
            _ => web(random),
        }
    }

    /// A fill that is not refused before its walk, as a book.
    fn of_fill(&mut self) -> Case {
        loop {
            let fill = self.fills.next();
            if fill.refusal().is_none() {
                return of_host(&fill, &mut self.random);
            }
        }
    }
}

fn lines(random: &mut Random) -> Vec<u8> {
    few(&LINES, random)
}

/// A member `m` of these lines that takes in `a` and `b`, and another one `n`.
fn of_lines(text: Vec<u8>, random: &mut Random) -> Case {
    let texts = [titled(text, random), lines(random), lines(random), titled(lines(random), random)];
    let names = ["m", "a", "b", "n"].map(|name| name.as_bytes().to_vec());
    let files: Vec<OwnFile> = names.into_iter().zip(texts).collect();
    let list = random.pick(&["m", "m", "m m", "n m", "m n m"]);
    let list: Vec<&[u8]> = list.split(' ').map(str::as_bytes).collect();
    Case::of(FileSet::of(&files), &list, assemblies::url(random).as_bytes())
}

/// The text with a title before it, behind it or none more.
fn titled(text: Vec<u8>, random: &mut Random) -> Vec<u8> {
    match random.below(8) {
        0 => [&text[..], b"\n# U\n"].concat(),
        1 => text,
        _ => [b"# T\n", &text[..]].concat(),
    }
}

/// The host of a fill as a member; where there are 64 files besides, the first file. It
/// is listed once or a few times, now and then with another file.
fn of_host(fill: &Fill, random: &mut Random) -> Case {
    let mut files = fill.set.own_files();
    let host = match files.iter().position(|(name, _)| *name == fill.name) {
        Some(at) => {
            files[at].1 = fill.text.clone();
            at
        }
        None if files.len() == 64 => 0,
        None => {
            files.push((fill.name.clone(), fill.text.clone()));
            files.len() - 1
        }
    };
    files[host].1 = titled(std::mem::take(&mut files[host].1), random);
    let mut list = vec![host; random.pick(&[1, 1, 1, 2, 3])];
    if random.one_in(6) {
        list.insert(random.below(list.len() + 1), random.below(files.len()));
    }
    let list: Vec<&[u8]> = list.into_iter().map(|at| &files[at].0[..]).collect();
    Case::of(FileSet::laid_out(&files, random), &list, assemblies::url(random).as_bytes())
}

/// Which files may take in which.
#[derive(Clone, Copy)]
enum Taking {
    /// Those behind the members, none of which has a heading.
    Common,
    /// Those behind the members, each for the book of one member only.
    Apart,
    /// All later ones.
    Any,
}

impl Taking {
    fn may(self, from: usize, to: usize, members: usize) -> bool {
        match self {
            Taking::Common => to >= members,
            Taking::Apart => to >= members && from % members == to % members,
            Taking::Any => true,
        }
    }

    /// Whether a file has headings of its own.
    fn is_headed(self, file: usize, members: usize) -> bool {
        file < members || !matches!(self, Taking::Common)
    }
}

/// How many files there are, and how many of them, the first ones, are members.
#[derive(Clone, Copy)]
struct Counts {
    files: usize,
    members: usize,
}

/// Files that take in later ones, so that diamonds are among them. No file leads to more
/// than `most` others, each counted as often as it is taken in.
fn later(counts: Counts, taking: Taking, most: usize, random: &mut Random) -> Targets {
    let mut targets: Targets = vec![Vec::new(); counts.files];
    let mut taken = vec![0; counts.files];
    for file in (0..counts.files).rev() {
        let may = |to: &usize| taking.may(file, *to, counts.members);
        let later: Vec<usize> = (file + 1..counts.files).filter(may).collect();
        for _ in 0..if later.is_empty() { 0 } else { random.below(4) } {
            let to = random.pick(&later);
            if taken[file] + 1 + taken[to] <= most {
                taken[file] += 1 + taken[to];
                targets[file].push(to);
            }
        }
    }
    targets
}

/// What the texts of a case may hold, as members and as hosts.
#[derive(Clone, Copy)]
struct Manner {
    member: member::Manner,
    host: host::Manner,
}

/// What the texts of a case hold, with a fault or two in some cases.
fn manner(random: &mut Random) -> Manner {
    let (mut member, mut host) = (assemblies::manner(random), fills::manner(random));
    member.bare |= !random.one_in(3);
    member.levels = random.pick(&[1, 2, 2, member.levels]);
    if !random.one_in(4) {
        (member.shared, member.untitled) = (false, false);
        (host.damaged, host.headless, host.levels) = (false, false, 0);
        host.torn &= random.one_in(2);
    }
    Manner { member, host }
}

fn built(
    counts: Counts,
    lines: usize,
    taking: Taking,
    manner: Manner,
    random: &mut Random,
) -> Case {
    let names = assemblies::names(counts.files, random);
    let targets = later(counts, taking, random.pick(&[4, 12, 30]), random);
    let misnamed = Misnamed { circles: random.one_in(16), absent: random.one_in(16) };
    let mut files: Vec<OwnFile> = Vec::new();
    for (number, (file, targets)) in names.iter().zip(&targets).enumerate() {
        let named = misnamed.targets(targets, &names, random);
        let headed = taking.is_headed(number, counts.members);
        let Manner { member: manner, host } = manner;
        let member = member::Writer { manner, number, file, names: &names, random };
        let text = Writer { member, host }.text(&named, headed);
        files.push((file.clone().into_bytes(), text));
    }
    assemblies::of_members(files, counts.members, lines, random)
}

fn taking(random: &mut Random) -> Taking {
    random.pick(&[Taking::Common, Taking::Common, Taking::Apart, Taking::Apart, Taking::Any])
}

/// A few members and files behind them.
fn web(random: &mut Random) -> Case {
    let members = random.within(1, 4);
    let counts = Counts { files: members + random.below(6), members };
    let lines = match random.below(16) {
        0 => 0,
        1..=3 => random.within(1, members + 3),
        _ => members,
    };
    let (taking, manner) = (taking(random), manner(random));
    built(counts, lines, taking, manner, random)
}

/// Up to 64 files and list lines, mostly with no fault.
fn many(random: &mut Random) -> Case {
    let files = random.pick(&[8, 24, 64]);
    let members = random.within(1, files);
    let lines = random.pick(&[members, members, 64]);
    let mut manner = manner(random);
    manner.host.bare |= !random.one_in(3);
    manner.member.bare = true;
    let taking = taking(random);
    built(Counts { files, members }, lines, taking, manner, random)
}
