//! Texts of space bytes and their neighbours, for the comparison of the leaf
//! functions.

use crate::exhaustive::Exhaustive;
use crate::random::Random;

const PARTS: [&str; 13] =
    [" ", "\t", "\n", "\x0b", "\x0c", "\r", "\x08", "\x0e", "\x1c", "\x1f", "\0", "a", "#"];

const SPACES: &[u8] = b" \t\n\x0b\x0c\r";

/// Such texts, the kinds by turns.
pub struct Spaced {
    pub parts: Exhaustive,
    random: Random,
    turn: usize,
}

impl Spaced {
    pub fn new(seed: u64) -> Self {
        Spaced { parts: Exhaustive::new(PARTS.to_vec(), ""), random: Random::new(seed), turn: 0 }
    }

    /// A text, and a place and a level to write it at as a heading.
    pub fn next(&mut self) -> (Vec<u8>, usize, usize) {
        self.turn += 1;
        let text =
            if self.turn % 2 == 0 { self.parts.next() } else { random_text(&mut self.random) };
        (text, self.random.below(40), self.random.below(7))
    }
}

/// Space bytes, in every other text with something else among them.
fn random_text(random: &mut Random) -> Vec<u8> {
    let mut text: Vec<u8> = (0..random.below(150)).map(|_| random.pick(SPACES)).collect();
    if random.one_in(2) {
        let at = random.below(text.len() + 1);
        text.splice(at..at, random.pick(&PARTS).bytes());
    }
    text
}
