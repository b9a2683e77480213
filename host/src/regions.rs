//! Texts of regions, for the stored cases and for the comparison of the leaf
//! functions.

use crate::generate::Texts;
use crate::random::Random;

/// What opens a region; the last four are problem 3.
const OPENERS: [&str; 11] = [
    "<!--[fragment:a]-->",
    "<!--[fragment:docs/steps.md]-->",
    " <!--[fragment:a b]--> ",
    "<!--[fragment:peer]-->",
    "<!--[fragment:a:peer]-->",
    "\t<!--[fragment:docs/steps.md:peer]-->\x0b",
    "<!--[fragment:<!--[:peer]-->",
    "<!--[fragment::peer]-->",
    "<!--[fragment:a:peer:peer]-->",
    "<!--[fragment:a]--> ]-->",
    "- <!--[fragment:a]-->",
];

/// Lines in and between regions, with what does not open or close one.
const BODIES: [&str; 12] = [
    "text", "", "# Heading", "Limit <!--[const:MAX]-->6 m<!--[/]-->.", "<!--[k]--><!--[/]-->",
    "<!--[k]-->v", "text <!--[/]-->", "<!--[/]--> <!--[/]-->", "```\n<!--[/]-->\n```",
    "~~~\n<!--[fragment:a]-->\n~~~", "<!--[fragment:b]-->", " <!--[fragment:b:peer]-->",
];

const CLOSERS: [&str; 5] =
    ["<!--[/]-->", "<!--[/]-->", " \t<!--[/]-->", "<!--[/]-->\x0c ", "\r<!--[/]-->\x0b"];

/// A few regions and what stands between them; now and then one is not closed.
pub fn regions(random: &mut Random) -> Vec<u8> {
    let mut lines = Vec::new();
    for _ in 0..random.within(1, 4) {
        bodies(1, random, &mut lines);
        lines.push(random.pick(&OPENERS));
        bodies(3, random, &mut lines);
        if !random.one_in(6) {
            lines.push(random.pick(&CLOSERS));
        }
    }
    let mut text = lines.join(random.pick(&["\n", "\n", "\r\n"]));
    text.push_str(random.pick(&["", "\n", "\r\n", "\r"]));
    text.into_bytes()
}

fn bodies(most: usize, random: &mut Random, lines: &mut Vec<&str>) {
    for _ in 0..random.within(0, most) {
        lines.push(random.pick(&BODIES));
    }
}

/// Texts of regions, and those that a scan is compared on with their bytes
/// made ASCII, by turns.
pub struct Marked {
    pub texts: Texts,
    random: Random,
    turn: usize,
}

impl Marked {
    pub fn new(seed: u64) -> Self {
        Marked { texts: Texts::new(seed), random: Random::new(seed), turn: 0 }
    }

    /// A text, and two numbers to choose a cursor by.
    pub fn next(&mut self) -> (Vec<u8>, [usize; 2]) {
        self.turn += 1;
        let mut text =
            if self.turn % 2 == 0 { self.texts.next() } else { regions(&mut self.random) };
        text.iter_mut().for_each(|byte| *byte &= 0x7F);
        (text, [(); 2].map(|()| self.random.below(1 << 32)))
    }
}
