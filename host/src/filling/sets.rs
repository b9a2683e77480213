//! File sets with a host, the kinds by turns.

use super::case::Case;
use super::texts::{Manner, Writer};
use crate::exhaustive::Exhaustive;
use crate::generate::{damage, straddling};
use crate::indexed::host_name;
use crate::notes::notes;
use crate::random::Random;
use crate::walking::lines::few;
use crate::walking::links::name;
use crate::walking::set::{FileSet, OwnFile};

/// Whole lines: every way through a host, and through a file.
const LINES: [&str; 12] = [
    "a", "", "# A", "## B", "```", "~~~", "<!--", "-->", "<!--[fragment:a]-->",
    "<!--[fragment:b:peer]-->", "<!--[/]-->", "[w](h#k)",
];

pub struct Sets {
    /// Every host of whole lines.
    pub hosts: Exhaustive,
    /// Every file of whole lines.
    pub files: Exhaustive,
    random: Random,
    turn: usize,
}

impl Sets {
    pub fn new(seed: u64) -> Self {
        Sets {
            hosts: Exhaustive::new(LINES.to_vec(), "\n"),
            files: Exhaustive::new(LINES.to_vec(), "\n"),
            random: Random::new(seed),
            turn: 0,
        }
    }

    pub fn next(&mut self) -> Case {
        self.turn += 1;
        let random = &mut self.random;
        match self.turn % 16 {
            0 => of_lines(self.hosts.next(), lines(random), lines(random)),
            1 => of_lines(around(random), self.files.next(), lines(random)),
            2 => of_lines(lines(random), lines(random), lines(random)),
            3 | 4 => chain(random),
            5 => circle(random),
            6 => damaged(random),
            7 => ill_formed(random),
            8 if random.one_in(30) => doubling(random),
            8 if random.one_in(4) => across_blocks(random),
            9 if random.one_in(100) => large(random),
            _ => web(random),
        }
    }
}

fn lines(random: &mut Random) -> Vec<u8> {
    few(&LINES, random)
}

fn of_lines(host: Vec<u8>, a: Vec<u8>, b: Vec<u8>) -> Case {
    Case::of(&[(b"a".to_vec(), a), (b"b".to_vec(), b)], b"h", &host)
}

/// Texts with markers, fences and line feeds across the ends of blocks, and a host
/// that takes them in or is one of them.
fn across_blocks(random: &mut Random) -> Case {
    let [host, a, b] = [(); 3].map(|()| {
        let mut text = straddling(random);
        text.iter_mut().for_each(|byte| *byte &= 0x7F);
        text
    });
    let host = if random.one_in(2) { host } else { around(random) };
    of_lines(host, a, b)
}

/// A host that takes in the file `a`.
fn around(random: &mut Random) -> Vec<u8> {
    let before = random.pick(&["", "# A\n", "## A\n", "###### A\n", "```\n~~~\n", "<!--\n"]);
    let peer = random.pick(&["", "", ":peer"]);
    let behind = random.pick(&["", "\n", "\n# C", "\n\n", "\n<!--[fragment:a]-->\n<!--[/]-->\n"]);
    format!("{before}<!--[fragment:a{peer}]-->\nold\n<!--[/]-->{behind}").into_bytes()
}

/// Names of a host. Links that look like an address resolve to the last two.
const HOSTS: [&str; 8] =
    ["host.md", "docs/host.md", "docs/b/host.md", "h", "/host.md", "a b:1: c", "mailto:h", "a:/b"];

/// Distinct names, and last the host's, which may be one of them.
fn names(count: usize, random: &mut Random) -> Vec<String> {
    let mut names: Vec<String> = (0..count).map(|at| name(at, random)).collect();
    let known = !names.is_empty() && random.one_in(5);
    let host = if known { random.below(count) } else { count };
    names.push(names.get(host).map_or(random.pick(&HOSTS).to_string(), String::clone));
    names
}

/// What the texts of a case hold, with a fault or two in every second case.
pub fn manner(random: &mut Random) -> Manner {
    Manner {
        headless: random.one_in(8),
        damaged: random.one_in(8),
        torn: random.one_in(4),
        bare: random.one_in(40),
        levels: random.pick(&[0, 1, 2, 2, 3, 4, 6, 6]),
        level: random.one_in(3),
        linked: random.one_in(2),
    }
}

/// What each of the files takes in, and last the host; numbers of files.
pub type Targets = Vec<Vec<usize>>;

/// What some targets are replaced by.
pub struct Misnamed {
    /// Any file, which may be on the chain.
    pub circles: bool,
    /// What is not in the index.
    pub absent: bool,
}

impl Misnamed {
    /// The names of the targets.
    pub fn targets(&self, to: &[usize], names: &[String], random: &mut Random) -> Vec<String> {
        let mut target = |&at: &usize| {
            if self.circles && random.one_in(4) {
                names[random.below(names.len())].clone()
            } else if self.absent && random.one_in(4) {
                strange(&names[at], random)
            } else {
                names[at].clone()
            }
        };
        to.iter().map(|at| target(at)).collect()
    }
}

/// The case of these files, some targets misnamed.
fn built(names: &[String], targets: &Targets, manner: Manner, random: &mut Random) -> Case {
    let misnamed = Misnamed { circles: random.one_in(16), absent: random.one_in(10) };
    let mut texts = Vec::new();
    for (file, targets) in names.iter().zip(targets) {
        let named = misnamed.targets(targets, names, random);
        texts.push(Writer { manner, file, names, random }.text(&named));
    }
    let text = texts.pop().unwrap_or_default();
    let (name, names) = names.split_last().expect("the host has a name");
    let named = names.iter().map(|name| name.clone().into_bytes());
    let files: Vec<OwnFile> = named.zip(texts).collect();
    Case { set: FileSet::laid_out(&files, random), name: name.clone().into_bytes(), text }
}

/// A name near another one.
fn strange(name: &str, random: &mut Random) -> String {
    match random.below(6) {
        0 => format!("{name}x"),
        1 => format!("/{name}"),
        2 => format!("{name} "),
        3 => name.to_uppercase() + "_",
        4 if name.len() > 1 => name[1..].to_string(),
        _ => "zz".to_string(),
    }
}

/// Files that take in later ones, so that diamonds are among them. No file leads
/// to more than `most` others, each counted as often as it is taken in.
fn later(count: usize, regions: usize, most: usize, random: &mut Random) -> Targets {
    let mut targets: Targets = vec![Vec::new(); count + 1];
    let mut taken = vec![0; count + 1];
    for file in (0..=count).rev() {
        let host = file == count;
        let from = if host { 0 } else { file + 1 };
        let wanted = if host { random.within(1, regions + 1) } else { random.below(regions + 1) };
        for _ in 0..if from < count { wanted } else { 0 } {
            let to = random.within(from, count - 1);
            if taken[file] + 1 + taken[to] <= most {
                taken[file] += 1 + taken[to];
                targets[file].push(to);
            }
        }
    }
    targets
}

fn web(random: &mut Random) -> Case {
    let many = random.one_in(30);
    let count = if many { random.within(7, 64) } else { random.below(7) };
    let regions = random.pick(&[1, 2, 2, 3]);
    let targets = later(count, regions, random.pick(&[6, 12, 30]), random);
    let manner = manner(random);
    built(&names(count, random), &targets, manner, random)
}

/// Each file takes in the next one, and now and then the one after it.
fn chain(random: &mut Random) -> Case {
    let count = match random.below(40) {
        0 | 1 => random.within(60, 64),
        2 | 3 => random.within(8, 59),
        _ => random.within(1, 7),
    };
    let mut targets: Targets = (1..count).map(|next| vec![next]).collect();
    targets.push(Vec::new());
    targets.push(vec![0]);
    for _ in 0..random.below(3) {
        let file = random.below(count);
        if file + 2 < count && file + 12 > count {
            targets[file].push(file + 2);
        }
    }
    let mut manner = manner(random);
    if count > 5 && !random.one_in(8) {
        manner.levels = random.below(2);
        (manner.level, manner.damaged, manner.headless) = (true, false, false);
        manner.torn &= random.one_in(4);
    }
    built(&names(count, random), &targets, manner, random)
}

/// A chain that ends in one of its files or in the host.
fn circle(random: &mut Random) -> Case {
    let many = random.within(8, 64);
    let few = random.within(1, 5);
    let count = if random.one_in(20) { random.pick(&[many, 64]) } else { few };
    let mut targets: Targets = (1..count).map(|next| vec![next]).collect();
    let some = random.below(count);
    targets.push(vec![random.pick(&[count, count - 1, 0, some])]);
    targets.push(vec![0]);
    if random.one_in(2) {
        targets[count].insert(random.below(2), random.below(count));
    }
    let manner = Manner { levels: random.below(2), level: true, linked: true, ..Manner::default() };
    built(&names(count, random), &targets, manner, random)
}

/// Each file takes in the next one twice.
fn doubling(random: &mut Random) -> Case {
    let count = random.within(4, 40);
    let mut targets: Targets = (1..count).map(|next| vec![next; 2]).collect();
    targets.push(Vec::new());
    targets.push(vec![0]);
    let manner = Manner { bare: count > 9, level: true, levels: 1, ..Manner::default() };
    built(&names(count, random), &targets, manner, random)
}

/// A case of another kind, its bytes damaged in a few places.
fn damaged(random: &mut Random) -> Case {
    let mut case = if random.one_in(3) { chain(random) } else { web(random) };
    let mut files = case.set.own_files();
    for _ in 0..random.within(1, 3) {
        let at = random.below(files.len() + 1);
        let text = files.get_mut(at).map_or(&mut case.text, |(_, text)| text);
        damage(random, text);
        if !random.one_in(16) {
            text.iter_mut().for_each(|byte| *byte &= 0x7F);
        }
    }
    Case::of(&files, &case.name, &case.text)
}

/// A case with one or two of the faults 1 to 6.
fn ill_formed(random: &mut Random) -> Case {
    let mut case = web(random);
    for _ in 0..random.within(1, 2) {
        match random.below(8) {
            6 => case.text.insert(random.below(case.text.len() + 1), 0x80),
            kind if kind == 7 || kind == 0 && case.set.index.is_empty() => {
                case.name = host_name(true, random);
            }
            kind => case.set.spoil(kind, random),
        }
    }
    case
}

/// A host of notes, and files that are longer than most.
fn large(random: &mut Random) -> Case {
    let host = notes(random.within(2_000, 40_000), random);
    let mut steps = b"# Steps\n\n".to_vec();
    for _ in 0..random.within(10, 200) {
        steps.extend(random.pick(&[
            &b"the staff gauge was read again, [as here](/host.md#datum)\n"[..],
            b"\n",
            b"- a list, [with a link](../host.md)\r\n",
            b"## Part\n",
            b"```\n# quoted\n```\n",
        ]));
    }
    if random.one_in(2) {
        steps.extend(b"<!--[fragment:last]-->\n<!--[/]-->\n");
    }
    let last = b"plain, [a link](docs/fragments/steps.md#k)\n".repeat(random.within(1, 80));
    let files = [(b"docs/fragments/steps.md".to_vec(), steps), (b"last".to_vec(), last)];
    Case::of(&files, b"host.md", &host)
}
