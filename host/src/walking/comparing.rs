//! Compares a call of the library with what it has to answer, case by case.

use std::fmt::{self, Display, Formatter};

use super::expected::Expected;
use super::lent::{Function, Lent};
use super::limits::{Limits, Needs, all_limits, distinct, edge_limits, random_limits};
use super::set::Handed;
use super::source::Sources;
use crate::answer::Answer;
use crate::comparison::Options;
use crate::random::Random;

/// How many cases had each answer, refusals by number, and how many of these in a
/// file of the index.
#[derive(Default)]
pub struct Answers {
    pub accepted: u64,
    pub no_region: u64,
    pub most_files: u64,
    pub deepest: usize,
    /// What the file sets are held to.
    pub sources: Sources,
    longest: u64,
    /// Cases that were run again with larger limits.
    again: u64,
    /// Accepted cases that took files in.
    filled: u64,
    refused: [u64; 20],
    in_files: [u64; 20],
}

impl Answers {
    fn count(&mut self, answer: &Answer, deepest: usize) {
        let number = answer[1] as usize;
        match answer[0] {
            0 => {
                self.accepted += 1;
                self.filled += u64::from(answer[2] > 0);
                self.deepest = self.deepest.max(deepest);
                self.longest = self.longest.max(answer[1]);
                self.most_files = self.most_files.max(answer[2]);
            }
            1 => self.no_region += 1,
            _ => {
                self.refused[number] += 1;
                self.in_files[number] += u64::from(answer[2] > 0);
            }
        }
    }

    /// Whether some case was accepted, and these refusals were seen, some of them in a
    /// file.
    pub fn has_seen(&self, refused: &[u64], in_files: &[u64]) -> bool {
        self.accepted > 0
            && refused.iter().all(|&number| self.refused[number as usize] > 0)
            && in_files.iter().all(|&number| self.in_files[number as usize] > 0)
    }
}

impl Display for Answers {
    fn fmt(&self, f: &mut Formatter) -> fmt::Result {
        write!(f, "accepted: {}, of up to {} bytes", self.accepted, self.longest)?;
        write!(f, ", {} with files taken in", self.filled)?;
        for (number, all) in self.refused.iter().enumerate().filter(|(_, all)| **all > 0) {
            let in_files = self.in_files[number];
            write!(f, "\nrefusal {number}: {all}, in a file of the index {in_files}")?;
        }
        write!(f, "\nwith larger limits again: {}", self.again)
    }
}

/// What is wrong, and at which limits; at none where model and Rust differ.
type Wrong = (String, Option<Limits>);

/// A call, what it has to answer, and how a case that differs is made short.
pub struct Call<C> {
    pub function: Function,
    pub expected: fn(&C) -> Result<Expected, String>,
    pub shorter: fn(C, &mut dyn FnMut(&C) -> bool) -> C,
}

pub struct Comparison<C> {
    pub answers: Answers,
    call: Call<C>,
    lent: Lent,
    random: Random,
}

/// Whether larger limits may give another answer: after 8, 15 and 17.
fn is_for_limits(answer: &Answer) -> bool {
    answer[0] == 2 && [8, 15, 17].contains(&answer[1])
}

impl<C: Handed> Comparison<C> {
    pub fn of(call: Call<C>) -> Self {
        let (answers, lent, random) = (Answers::default(), Lent::default(), Random::new(1));
        Comparison { answers, call, lent, random }
    }

    /// Compares a case at the limits chosen for it; each of them is one call, and some
    /// are made again with larger ones. The answer is the number of calls.
    fn compare(
        &mut self,
        case: &C,
        choose: impl FnOnce(&Needs, usize) -> Vec<Limits>,
    ) -> Result<u64, Wrong> {
        let expected = (self.call.expected)(case).map_err(|wrong| (wrong, None))?;
        self.answers.sources.count(expected.source);
        let mut calls = 0;
        for limits in distinct(choose(&Needs::of(&expected.walk), expected.texts)) {
            let Some(answer) = expected.answer(&limits) else { continue };
            let said = (answer, expected.written(&answer));
            self.call_with(case, &limits, said)?;
            self.answers.count(&answer, expected.walk.deepest);
            calls += 1;
            if !is_for_limits(&answer) && self.random.one_in(4) {
                let larger = limits.larger(expected.texts, &mut self.random);
                self.call_with(case, &larger, said)?;
                self.answers.again += 1;
                calls += 1;
            }
        }
        Ok(calls)
    }

    /// One call, which has to give this answer and text.
    fn call_with(&mut self, case: &C, limits: &Limits, said: (Answer, &[u8])) -> Result<(), Wrong> {
        let (answer, written) = said;
        let called = self.lent.call(self.call.function, case.parts(), limits, &answer, written);
        called.map_err(|wrong| (wrong, Some(*limits)))
    }

    /// A case that document 01 says the answer and the text of.
    pub fn check(&mut self, case: &C, limits: &Limits, said: (Answer, &str)) -> Result<(), String> {
        let called = self.call_with(case, limits, (said.0, said.1.as_bytes()));
        called.map_err(|(wrong, _)| format!("{}{wrong}", shown(case)))
    }

    /// A case at every limit that tells.
    pub fn compare_at_all(&mut self, case: &C) -> Result<u64, String> {
        self.compare(case, all_limits).map_err(|(wrong, _)| format!("{}{wrong}", shown(case)))
    }

    /// A case at the ends of L's range and next to them.
    pub fn compare_at_edges(&mut self, case: &C) -> Result<u64, String> {
        let compared = self.compare(case, |_, texts| edge_limits(texts));
        compared.map_err(|(wrong, _)| format!("{}{wrong}", shown(case)))
    }

    /// The case made short, and what is wrong with it.
    fn shortened(&mut self, case: C, (mut wrong, at): Wrong) -> String {
        let shorter = self.call.shorter;
        let case = shorter(case, &mut |case| {
            let mut random = Random::new(1);
            let again = self.compare(case, |needs, texts| {
                let mut limits = all_limits(needs, texts);
                limits.extend(random_limits(needs, texts, &mut random));
                limits.extend(at);
                limits
            });
            again.map_err(|(again, _)| wrong = again).is_err()
        });
        format!("{}{wrong}", shown(&case))
    }

    /// Goes on behind so many cases for as long as the options say. The answer is the
    /// number of cases.
    pub fn run(
        &mut self,
        options: &Options,
        mut cases: u64,
        mut next: impl FnMut() -> C,
    ) -> Result<u64, String> {
        let more = options.more();
        let mut random = Random::new(options.seed);
        while more(cases) {
            let case = next();
            let choose = |needs: &Needs, texts| match random.below(100) {
                0 => all_limits(needs, texts),
                _ => random_limits(needs, texts, &mut random),
            };
            match self.compare(&case, choose) {
                Ok(number) => cases += number,
                Err(wrong) => {
                    let wrong = self.shortened(case, wrong);
                    return Err(format!("{wrong}\nafter {cases} cases"));
                }
            }
        }
        Ok(cases)
    }
}

/// What is handed in, as byte strings of Rust, and the files.
fn shown<C: Handed>(case: &C) -> String {
    let mut shown = "\n".to_string();
    for (label, part) in C::LABELS.iter().zip(case.parts()) {
        shown += &format!("{label} b\"{}\"\n", part.escape_ascii());
    }
    if case.refusal().is_none() {
        for (name, text) in case.set().files() {
            shown += &format!("file {}\n{}\n", name.escape_ascii(), text.escape_ascii());
        }
    }
    shown
}
