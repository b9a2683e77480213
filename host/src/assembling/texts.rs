//! Texts of members.

use super::links::member_link;
use crate::random::Random;
use crate::walking::lines::{BLANK, BLOCKS, PLAIN, TITLES, TORN, blank_lines, joined};

/// What the texts of a case may hold.
#[derive(Clone, Copy, Default)]
pub struct Manner {
    /// The deepest level of a heading.
    pub levels: usize,
    /// A heading may have an anchor that other members have too.
    pub shared: bool,
    /// The title may be left out.
    pub untitled: bool,
    /// Hand-written contents.
    pub contents: bool,
    /// Fences and comments that nothing closes.
    pub torn: bool,
    /// No more than a line or two.
    pub bare: bool,
}

/// What is nearly a title, and titles that are quoted or skipped.
const NEAR_TITLES: [&str; 12] = [
    "#T", "#  T", " # T", "#\tT", "####### T", "#", "\\# T", "```\n# T\n```", "~~~\n# T\n~~~",
    "<!--\n# T\n-->", "<!-- # T -->", "T\n===",
];

/// Headings of hand-written contents and what is nearly one, some of them quoted or
/// skipped.
const CONTENTS: [&str; 16] = [
    "# Contents", "## Contents", "###### contents", "## Table of Contents",
    "# TABLE OF CONTENTS\t", "##  contents \r", "### tAbLe oF cOnTeNtS", "```\n# Contents\n```",
    "<!--\n# Contents\n-->", "# Contents\n## Table of contents", "####### Contents", "#Contents",
    " # Contents", "# Contents of", "# table  of contents", "# [Contents](a)",
];

/// Lines below them.
const LISTED: [&str; 8] =
    ["- [A](#a)", "1. [B](b.md)", "", " # listed", "\t#listed", "```", "<!-- a", "text"];

/// What ends them.
const ENDS: [&str; 8] = ["#tag", "#", "## Next", "####### x", "#\tx", "# ", "###", "#!"];

/// A text with a run of underscores that stays.
pub const STAYING: &str = "z_1";

/// Texts of headings, one of their anchors empty.
const WORDS: [&str; 8] = ["A", "A", "B", "Rod 7", "Rating & Datum", "x-y", STAYING, ""];

/// Whole texts.
const WHOLE: [&str; 14] = [
    "", "\n", " \n\t\n", "\r\n", "#", "# ", "# \n", "# Contents", "# Contents\n# T",
    "# T\r\n \r\n", "\n\n# T", "# T\n# Contents\n", "```\n# T", "<!--\n# T",
];

/// Writes the member of a number; `names` are those that its links may name.
pub struct Writer<'a> {
    pub manner: Manner,
    pub number: usize,
    pub file: &'a str,
    pub names: &'a [String],
    pub random: &'a mut Random,
}

impl Writer<'_> {
    pub fn text(&mut self) -> Vec<u8> {
        if self.manner.untitled && self.random.one_in(8) {
            return self.random.pick(&WHOLE).as_bytes().to_vec();
        }
        let mut lines: Vec<String> = Vec::new();
        let most = if self.manner.bare { 1 } else { 7 };
        blank_lines(&mut lines, self.random);
        if self.random.one_in(4) {
            (0..self.random.within(1, 3)).for_each(|_| self.own_line(&mut lines));
        }
        if !(self.manner.untitled && self.random.one_in(3)) {
            lines.push(format!("# {}", self.heading_text()));
        }
        (0..self.random.within(0, most)).for_each(|_| self.own_line(&mut lines));
        if self.manner.contents && self.random.one_in(4) {
            self.contents(&mut lines);
        }
        blank_lines(&mut lines, self.random);
        joined(&lines, self.random)
    }

    fn own_line(&mut self, lines: &mut Vec<String>) {
        let manner = self.manner;
        match self.random.below(13) {
            0..=3 => {
                let hashes = "#".repeat(self.random.within(1, manner.levels));
                lines.push(format!("{hashes} {}", self.heading_text()));
            }
            4 => lines.push(self.random.pick(&BLANK).to_string()),
            5 => lines.extend(self.random.pick(&BLOCKS).iter().map(|line| line.to_string())),
            6 if manner.torn => lines.push(self.random.pick(&TORN).to_string()),
            7 if manner.contents => self.contents(lines),
            8..=10 => self.links(lines),
            11 => lines.push(self.random.pick(&NEAR_TITLES).to_string()),
            _ => lines.push(self.random.pick(&PLAIN).to_string()),
        }
    }

    fn links(&mut self, lines: &mut Vec<String>) {
        let Writer { file, names, random, .. } = self;
        let [one, two] = [(); 2].map(|()| member_link(file, names, random));
        lines.push(match random.below(10) {
            0 => format!("```\n{one}{two}\n```"),
            1 => format!("<!--\n{one}\n-->{two}"),
            2 => (one + &two).replace(')', "\n)"),
            3 => "x".repeat(random.below(140)) + &one,
            4 => one + " " + &member_link(file, names, random) + &two,
            _ => one + &two,
        });
    }

    fn contents(&mut self, lines: &mut Vec<String>) {
        let random = &mut *self.random;
        for _ in 0..random.pick(&[1, 1, 1, 2]) {
            lines.push(random.pick(&CONTENTS).to_string());
            for _ in 0..random.below(4) {
                lines.push(random.pick(&LISTED).to_string());
            }
        }
        if random.one_in(2) {
            lines.push(random.pick(&ENDS).to_string());
        }
    }

    /// Mostly with the member's number in it, so that no other member has the anchor.
    fn heading_text(&mut self) -> String {
        let word = self.random.pick(&WORDS);
        let shared = self.manner.shared && self.random.one_in(2);
        if shared && self.random.one_in(6) {
            return self.random.pick(&TITLES).to_string();
        }
        let number = self.number;
        self.marked_up(if shared { word.to_string() } else { format!("{word} q{number}") })
    }

    /// The text in another form of the same anchor.
    fn marked_up(&mut self, text: String) -> String {
        match self.random.below(12) {
            0 => format!("*{text}*"),
            1 => format!("`{text}`"),
            2 => format!("[{text}]({})", self.names[self.random.below(self.names.len())]),
            3 => text.to_lowercase(),
            4 => format!(" {text}\t"),
            5 => format!("__{text}__!"),
            6 => format!("{text} \r"),
            7 => format!("[{text}](a(b).md)"),
            _ => text,
        }
    }
}
