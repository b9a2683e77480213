//! Texts and titles for the comparison of the leaf functions, rich in headings
//! and in what is nearly one.

use crate::exhaustive::Exhaustive;
use crate::random::Random;

const PARTS: [&str; 16] = [
    "#", " ", "\n", "```", "~~~", "<!--", "-->", "a", "contents", "Table of Contents", "######",
    "\t", "\r", "\x0b", "\x0c", "\x1c",
];

const LINES: [&str; 23] = [
    "", "a", "# A", "## B c", "###### D \r", "####### E", "#F", " # G", "#\tH", "# ", "#", "```",
    " \t~~~ x", "~~", "\x0b``` `", "<!--", "\r<!-- c --> d", "<!--->", "a -->", "# contents",
    "### Table Of contents\t", "# contents of", "####### contents",
];

const NEAR_PARTS: [&str; 26] = [
    "##", "###", "####", "#####", "#######", "# ", "## ", "###### ", "``", "````", "~", "`~`",
    "<!-", "<!---->", "<!--->", "--->", "--", "CONTENTS", "contents ", "tAbLe Of CoNtEnTs",
    "table  of contents", "content", "\x08", "\x0e", "\x1f", "\0",
];

/// Whole texts, the kinds by turns.
pub struct Headed {
    pub parts: Exhaustive,
    pub lines: Exhaustive,
    random: Random,
    turn: usize,
}

impl Headed {
    pub fn new(seed: u64) -> Self {
        Headed {
            parts: Exhaustive::new(PARTS.to_vec(), ""),
            lines: Exhaustive::new(LINES.to_vec(), "\n"),
            random: Random::new(seed),
            turn: 0,
        }
    }

    pub fn next(&mut self) -> Vec<u8> {
        self.turn += 1;
        match self.turn % 8 {
            0..=2 => self.parts.next(),
            3..=4 => self.lines.next(),
            _ => random_text(&mut self.random),
        }
    }
}

fn random_text(random: &mut Random) -> Vec<u8> {
    let mut text = String::new();
    for _ in 0..random.within(1, 16) {
        match random.below(4) {
            0 => text.push_str(random.pick(&LINES)),
            1 => {
                text.push_str(&"#".repeat(random.within(1, 7)));
                text.push(' ');
                text.push_str(&random_title(random));
            }
            _ => {
                for _ in 0..random.below(7) {
                    text.push_str(part(&PARTS, &NEAR_PARTS, 2, random));
                }
            }
        }
        text.push('\n');
    }
    if random.one_in(3) {
        text.pop();
    }
    text.into_bytes()
}

const TITLE_PARTS: [&str; 15] =
    ["[", "]", "(", ")", "`", "*", "_", "-", " ", "a", "B", "7", ".", "\t", "\r"];

const NEAR_TITLE_PARTS: [&str; 19] = [
    "[a](b)", "[a] (b)", "[a](", "![a](b)", "[[a]](b)", "](", "`a_b`", "**a**", "__", "\x0b",
    "\x0c", "@", "{", "/", ":", "Z", "\x7f", "contents", "Table of Contents",
];

/// Underscores that stay in an anchor, and such that go, by what stands around them.
const UNDERSCORED: [&str; 22] = [
    "_", "__", "a_1", "a__[", "_]", "_1", "a_[_b](u)_c", "[a]_1", "a_[b", "[a](u_1)_b", "*q*_1",
    "q_`1`", "`q_1`", "a_[](u)_1", "[a_](u)", "[_b](u)", "[_]", "_a_", "a_b__c___7", " _", "_ ",
    "a_*b*",
];

/// Heading texts, the kinds by turns.
pub struct Titles {
    pub parts: Exhaustive,
    random: Random,
    turn: usize,
}

impl Titles {
    pub fn new(seed: u64) -> Self {
        Titles {
            parts: Exhaustive::new(TITLE_PARTS.to_vec(), ""),
            random: Random::new(seed),
            turn: 0,
        }
    }

    pub fn next(&mut self) -> Vec<u8> {
        self.turn += 1;
        match self.turn % 4 {
            0 | 2 => self.parts.next(),
            1 => underscored_title(&mut self.random).into_bytes(),
            _ => random_title(&mut self.random).into_bytes(),
        }
    }

    /// A title near another one, so that some pairs have the same anchor.
    pub fn near(&mut self, title: &[u8]) -> Vec<u8> {
        let mut near = title.to_vec();
        for _ in 0..self.random.within(1, 3) {
            let at = self.random.below(near.len() + 1);
            match self.random.below(4) {
                0 if at < near.len() => drop(near.remove(at)),
                1 if at < near.len() => near[at] ^= 0x20,
                _ => {
                    let part = self.random.pick(&TITLE_PARTS);
                    near.splice(at..at, part.bytes());
                }
            }
        }
        near.retain(|byte| *byte != b'\n');
        near
    }
}

/// One of `parts`, or once in `often` one that is nearly such a part.
fn part(
    parts: &[&'static str],
    near: &[&'static str],
    often: usize,
    random: &mut Random,
) -> &'static str {
    if random.one_in(often) { random.pick(near) } else { random.pick(parts) }
}

pub fn underscored_title(random: &mut Random) -> String {
    let mut title = String::new();
    for _ in 0..random.within(1, 6) {
        title.push_str(part(&TITLE_PARTS, &UNDERSCORED, 2, random));
    }
    title
}

pub fn random_title(random: &mut Random) -> String {
    let mut title = String::new();
    for _ in 0..random.below(10) {
        title.push_str(part(&TITLE_PARTS, &NEAR_TITLE_PARTS, 3, random));
    }
    title
}
