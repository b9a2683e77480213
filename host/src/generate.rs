//! Texts for the comparison, rich in what the scan looks at.

use crate::exhaustive::Exhaustive;
use crate::notes::notes;
use crate::random::Random;

/// What can stand in a line, and what ends one.
const PARTS: [&str; 17] = [
    "```", "~~~", "<!--[", "/", "]-->", "<!--[/]-->", "<!--[fragment:", "a", ":", ":peer", " ",
    "\t", "\r", "\n", "\x0b", "\x0c", "#",
];

/// What can be taken for a part, and markers as they come together.
const NEAR_PARTS: [&str; 28] = [
    "<!-[", "<!--", "<!--[/", "<!-- [", "<<!--[", "]--", "]->", "]]-->", "]--]-->", "-->", "``",
    "~~", "`~`", "<!--[/]--", "<!--[/ ]-->", "<!--[//]-->", "<!--[]-->", "<!--[]-->v<!--[/]-->",
    "<!--[fragment", "<!--[Fragment:", "<!--[fragment:]-->", "<!--[fragment:a]-->", ":peer]-->",
    ":peers]-->", "<!--[k]-->", "<!--[k]-->v<!--[/]-->", "<!--[k]--><!--[l]-->v<!--[/]-->",
    "<!--[const:MAX:m]-->6 m<!--[/]-->",
];

const FENCES: [&str; 4] = ["```", "~~~", "\t```a", " ~~~ <!--[k]-->"];

const MARKER_LINES: [&str; 8] = [
    "<!--[fragment:a]-->",
    " <!--[fragment:b:peer]--> \r",
    "<!--[fragment:a:b]-->",
    "a <!--[fragment:a]-->",
    "<!--[/]-->",
    "\x0c<!--[/]-->\t",
    "a<!--[/]-->",
    "<!--[k]-->v<!--[/]--> <!--[l]--><!--[/]-->",
];

/// Bytes at a line's ends: space bytes, and their neighbours that are none.
const EDGES: [&str; 13] =
    [" ", "\t", "\x0b", "\x0c", "\r", "   ", " \t ", "\x08", "\x0e", "\x1c", "\x1f", "!", "\0"];

const LINE_ENDS: [&str; 8] = ["\n", "\n", "\n", "\n", "\r\n", "\r\n", "\r\r\n", "\r"];

/// The texts of a run, the kinds by turns.
pub struct Texts {
    /// Every sequence of parts.
    pub parts: Exhaustive,
    /// Every sequence of whole lines, so every way through the scan's state.
    pub lines: Exhaustive,
    random: Random,
    turn: usize,
}

impl Texts {
    pub fn new(seed: u64) -> Self {
        let lines = [&["", "a"], &FENCES[..], &MARKER_LINES].concat();
        Texts {
            parts: Exhaustive::new(PARTS.to_vec(), ""),
            lines: Exhaustive::new(lines, "\n"),
            random: Random::new(seed),
            turn: 0,
        }
    }

    pub fn next(&mut self) -> Vec<u8> {
        self.turn += 1;
        match self.turn % 16 {
            0..=4 => self.parts.next(),
            5..=6 => self.lines.next(),
            7..=10 => marked(&mut self.random),
            11..=12 => straddling(&mut self.random),
            13..=14 => damaged(&mut self.random),
            _ if self.random.one_in(100) => far_on(&mut self.random),
            _ => notes(self.random.below(2_000), &mut self.random),
        }
    }
}

/// A few random lines. The last may lack its line feed.
pub fn marked(random: &mut Random) -> Vec<u8> {
    let mut text = String::new();
    for _ in 0..random.within(1, 12) {
        marked_line(random, &mut text);
        text.push_str(random.pick(&LINE_ENDS));
    }
    if random.one_in(3) {
        text.pop();
    }
    text.into_bytes()
}

fn marked_line(random: &mut Random, text: &mut String) {
    edge(random, text);
    match random.below(10) {
        0 => text.push_str(random.pick(&FENCES)),
        1..=6 => text.push_str(random.pick(&MARKER_LINES)),
        _ => {
            for _ in 0..random.below(7) {
                let near = random.one_in(2);
                text.push_str(if near { random.pick(&NEAR_PARTS) } else { random.pick(&PARTS) });
            }
        }
    }
    edge(random, text);
}

fn edge(random: &mut Random, text: &mut String) {
    if random.one_in(3) {
        text.push_str(random.pick(&EDGES));
    }
}

/// Marked lines at offsets and line numbers past 16 bits, after notes or a filling.
fn far_on(random: &mut Random) -> Vec<u8> {
    let size = random.within(50_000, 110_000);
    let mut text = if random.one_in(2) { notes(size, random) } else { Vec::new() };
    fill_up(size, random, &mut text);
    text.extend(marked(random));
    text
}

/// Block sizes at which a search in blocks could miss what stands across them.
const BLOCKS: [usize; 5] = [16, 64, 66, 192, 256];

const ACROSS: [&[u8]; 22] = [
    b"\n", b"\r\n", b"<!--[", b"]-->", b"<!--[/]-->", b"<!--[k]-->v<!--[/]-->", b"<!--[k]-->v",
    b"\n<!--[fragment:a]-->\n", b"\n<!--[fragment:a:peer]-->\r\n", b"\n<!--[/]-->\n",
    b"<!--[fragment:", b"<!--[/]", b"]--", b"\n```\n", b"\n~~~\n", b"\n \t```", b"\n``\n~~\n",
    b"```", b"~~~", b"\n\x0e```\n", b"\xc3\xa9", b"\n\x80\n\xff",
];

/// Plain bytes, space bytes, and bytes that begin something without going on.
const FILLINGS: [&[u8]; 14] = [
    b"x", b"x", b"plain words, ", b"x\n", b"\n", b" ", b"\t \x0b\x0c\r", b"<", b"-", b"`", b"~",
    b"<!--", b"]--", b"a line\r\n",
];

/// Markers, fences and line feeds across the ends of blocks.
pub fn straddling(random: &mut Random) -> Vec<u8> {
    straddling_of(&ACROSS, random)
}

/// Such pieces across the ends of blocks, the blocks counted from the start of the
/// text or of a later line.
pub fn straddling_of(pieces: &[&[u8]], random: &mut Random) -> Vec<u8> {
    let mut text = if random.one_in(2) { marked(random) } else { Vec::new() };
    let mut start = random.pick(&[0, text.len()]);
    for _ in 0..random.within(1, 4) {
        let piece = random.pick(pieces);
        let end = start + random.pick(&BLOCKS) * random.within(1, 3);
        fill_up(end - random.below(piece.len() + 2).min(end), random, &mut text);
        text.extend_from_slice(piece);
        if random.one_in(3) {
            text.extend(marked(random));
            start = text.len();
        }
    }
    text
}

/// Goes on with one filling until the text has `size` bytes.
fn fill_up(size: usize, random: &mut Random, text: &mut Vec<u8>) {
    let missing = size.saturating_sub(text.len());
    let filling = random.pick(&FILLINGS);
    text.extend(filling.iter().cycle().take(missing));
}

/// A text of the other kinds, damaged in a few places.
pub fn damaged(random: &mut Random) -> Vec<u8> {
    let mut text = match random.below(4) {
        0 => straddling(random),
        1 => notes(random.within(100, 1_500), random),
        _ => marked(random),
    };
    for _ in 0..random.within(1, 3) {
        damage(random, &mut text);
    }
    text
}

const TELLING_BYTES: &[u8] = b"<!-[]/>`~:a# \t\n\x0b\x0c\r\0\x08\x0e\x1c\x1f\x7f";
const WIDE_BYTES: &[u8] = b"\x80\x85\xa0\xbf\xc3\xff";

pub fn damage(random: &mut Random, text: &mut Vec<u8>) {
    let from = random.below(text.len() + 1);
    let to = (from + random.below(20)).min(text.len());
    match random.below(8) {
        0 => text.truncate(from),
        1 => drop(text.drain(from..to)),
        2 => text.extend_from_within(from..to),
        3 => {
            let part = text[from..to].to_vec();
            text.splice(from..from, part);
        }
        4 => text.insert(from, random.pick(WIDE_BYTES)),
        5 => text.insert(from, random.pick(TELLING_BYTES)),
        6 if from < to => text[from] = random.pick(TELLING_BYTES),
        _ if from < to => text[from] ^= 1 << random.below(7),
        _ => {}
    }
}
