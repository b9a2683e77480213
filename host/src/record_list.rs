//! Stored cases of a call on a list: an assembly or a book.

use jilgyemot_host::assembling::case::Case;
use jilgyemot_host::assembling::examples::{CHECKS, of_example};
use jilgyemot_host::walking::expected::Expected;
use jilgyemot_host::walking::limits::{Limits, Needs};

use crate::Cases;
use crate::record_walk::{self, is_small};

/// Room to spare for an example.
const AMPLE: usize = 1_000;

/// What a call has to answer, and which refusals it has.
pub struct ListCall {
    pub expected: fn(&Case) -> Result<Expected, String>,
    pub refusals: &'static [u64],
}

impl ListCall {
    pub fn expected(&self, case: &Case) -> Expected {
        (self.expected)(case).expect("the model agrees with the Rust")
    }

    fn add(&self, cases: &mut Cases, case: &Case, limits: &Limits) {
        record_walk::add(cases, case, limits, &self.expected(case));
    }

    /// With none to spare, and one file or one byte short, where a text is tested.
    fn add_full_and_short(&self, cases: &mut Cases, case: &Case, expected: &Expected) {
        let needs = Needs::of(&expected.walk);
        let (longest, taken) = (needs.longest(), needs.taken());
        if longest > 1 {
            self.add(cases, case, &Limits::of(longest, taken, expected.texts));
            if taken > 0 {
                self.add(cases, case, &Limits::of(longest, taken - 1, expected.texts));
            }
            self.add(cases, case, &Limits::of(longest - 1, taken, expected.texts));
        }
    }

    /// K10 to K12, also with L at 0 and each buffer one byte short.
    pub fn add_checks(&self, cases: &mut Cases) {
        for (example, answer, text) in CHECKS {
            let case = of_example(example);
            let expected = self.expected(&case);
            let limits = Limits::of(AMPLE, 0, expected.texts);
            assert_eq!(expected.answer(&limits), Some(answer), "{text:?}");
            assert!(expected.written(&answer) == text.as_bytes(), "{text:?}");
            self.add(cases, &case, &limits);
            self.add(cases, &case, &Limits { limit: 0, ..limits });
            self.add(cases, &case, &Limits { out: limits.out - 1, ..limits });
            self.add(cases, &case, &Limits { work: limits.work - 1, ..limits });
            self.add_full_and_short(cases, &case, &expected);
        }
    }

    /// Each with room to spare, if there is memory for it, and with less.
    pub fn add_examples(&self, cases: &mut Cases, examples: impl Iterator<Item = Case>) {
        for case in examples {
            let expected = self.expected(&case);
            let taken = Needs::of(&expected.walk).taken();
            let limits = Limits::of(AMPLE, taken, expected.texts);
            if is_small(&case, &limits) {
                self.add(cases, &case, &limits);
            }
            self.add_full_and_short(cases, &case, &expected);
        }
    }

    /// Each with room to spare.
    pub fn add_ample(&self, cases: &mut Cases, named: impl Iterator<Item = Case>) {
        for case in named {
            let texts = self.expected(&case).texts;
            self.add(cases, &case, &Limits::of(AMPLE, 0, texts));
        }
    }

    /// Every refusal has to be among the cases.
    pub fn assert_all_refused(&self, cases: &Cases) {
        let printed = String::from_utf8_lossy(&cases.stdout);
        for number in self.refusals {
            let row = format!("\n2\t{number}\t");
            assert!(printed.contains(&row), "no case is refused by {number}");
        }
    }
}
