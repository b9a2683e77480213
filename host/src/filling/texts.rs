//! Texts of hosts and files: own lines, and regions that name files.

use crate::random::Random;
use crate::walking::lines::{BLANK, BLOCKS, PLAIN, TITLES, TORN, blank_lines, joined};
use crate::walking::links::link;

/// What the texts of a case may hold.
#[derive(Clone, Copy, Default)]
pub struct Manner {
    /// The deepest level of a heading, 0 for none at all.
    pub levels: usize,
    /// Every region with a heading above it is a peer.
    pub level: bool,
    /// A region may be a peer with no heading above it.
    pub headless: bool,
    /// Markers that are nearly ones, and regions in one another.
    pub damaged: bool,
    /// Fences and comments that nothing closes.
    pub torn: bool,
    /// Links to names of the case.
    pub linked: bool,
    /// No more than the markers.
    pub bare: bool,
}

/// What is no opener and no closer, or too many.
const DAMAGED: [&str; 10] = [
    "x <!--[fragment:a]-->", "<!--[fragment:a]--> x", "<!--[fragment:a:b]-->",
    "<!--[fragment:]-->", "<!--[fragment::peer]-->", "<!--[fragment:a",
    "<!--[fragment:a]--><!--[/]-->", "<!--[fragment:a]-->", "<!--[fragment:a:peer]-->\n<!--[/]-->",
    "<!--[ fragment:a]-->",
];

const EDGES: [&str; 10] = ["", "", "", "", "", "", " ", "\t", "\x0b", "  "];

/// Lines that stand in a region before it is filled.
const OLD: [&str; 9] = [
    "old", "# Old", "###### Old", "", "<!-- old", "-->", "[w](host.md#k)", "```\n<!--[/]-->\n```",
    "~~~\n```",
];

/// A text with a region for each target, in this order. `names` are those that
/// its links may name.
pub struct Writer<'a> {
    pub manner: Manner,
    pub file: &'a str,
    pub names: &'a [String],
    pub random: &'a mut Random,
}

impl Writer<'_> {
    pub fn text(&mut self, targets: &[String]) -> Vec<u8> {
        if targets.is_empty() && self.random.one_in(16) {
            return self.random.pick(&["", "\n", " \n\t\n", "\r\n", "#", "# "]).as_bytes().to_vec();
        }
        let mut lines: Vec<String> = Vec::new();
        let mut headed = false;
        self.blank_lines(&mut lines);
        for target in targets {
            headed |= self.own_lines(&mut lines);
            self.region(target, headed, &mut lines);
        }
        if targets.is_empty() || self.random.one_in(2) {
            self.own_lines(&mut lines);
        }
        self.blank_lines(&mut lines);
        joined(&lines, self.random)
    }

    fn blank_lines(&mut self, lines: &mut Vec<String>) {
        if !self.manner.bare {
            blank_lines(lines, self.random);
        }
    }

    /// Answers whether a heading is among them.
    fn own_lines(&mut self, lines: &mut Vec<String>) -> bool {
        let most = if self.manner.bare { 0 } else { 3 };
        let mut headed = false;
        for _ in 0..self.random.within(0, most) {
            headed |= self.own_line(lines);
        }
        headed
    }

    fn own_line(&mut self, lines: &mut Vec<String>) -> bool {
        let manner = self.manner;
        let random = &mut *self.random;
        match random.below(11) {
            0..=3 if manner.levels > 0 => {
                let hashes = "#".repeat(random.within(1, manner.levels));
                lines.push(format!("{hashes} {}", random.pick(&TITLES)));
                return true;
            }
            4 => lines.push(random.pick(&BLANK).to_string()),
            5 => lines.extend(random.pick(&BLOCKS).iter().map(|line| line.to_string())),
            6 if manner.torn => lines.push(random.pick(&TORN).to_string()),
            7 if manner.damaged && random.one_in(2) => {
                lines.push(random.pick(&DAMAGED).to_string());
            }
            8 | 9 if manner.linked => {
                let [one, two] = [(); 2].map(|()| link(self.file, self.names, random));
                lines.push(match random.below(6) {
                    0 => format!("```\n{one}{two}\n```"),
                    1 => (one + &two).replace(')', "\n)"),
                    _ => one + &two,
                });
            }
            10 => {
                let link = link(self.file, self.names, random);
                let end = random.pick(&["-->", " <!--[k]-->v<!--[/]-->", "", &link]);
                lines.push("x".repeat(random.below(140)) + end);
            }
            _ => lines.push(random.pick(&PLAIN).to_string()),
        }
        false
    }

    fn region(&mut self, target: &str, headed: bool, lines: &mut Vec<String>) {
        let manner = self.manner;
        let random = &mut *self.random;
        let often = random.one_in(4);
        let peer = if headed { manner.level || often } else { manner.headless && often };
        let [before, behind] = [(); 2].map(|()| random.pick(&EDGES));
        let peer = if peer { ":peer" } else { "" };
        lines.push(format!("{before}<!--[fragment:{target}{peer}]-->{behind}"));
        for _ in 0..random.pick(&[0, 0, 1, 2]) {
            lines.push(random.pick(&OLD).to_string());
        }
        if manner.damaged && random.one_in(6) {
            lines.push(random.pick(&DAMAGED).to_string());
        }
        if !(manner.damaged && random.one_in(8)) {
            let [before, behind] = [(); 2].map(|()| random.pick(&EDGES));
            lines.push(format!("{before}<!--[/]-->{behind}"));
        }
    }
}
