//! The refusals before the walk, as document 01 has them.

use std::fmt::{self, Display, Formatter};

use jilgyemot_host::answer::{Answer, accepted};
use jilgyemot_host::refusals::{Input, of_book, of_fill};

use super::{Outcome, library, same};

/// How often each refusal was the answer (0 where the checks passed), and how
/// often there was another fault behind it.
#[derive(Default)]
pub struct Checks {
    answers: [u64; 15],
    followed: [u64; 15],
}

impl Checks {
    pub fn check(&mut self, input: &Input) -> Outcome {
        let fill = self.counted(&of_fill(input));
        let book = self.counted(&of_book(input));
        let what = |kind| format!("the checks of a {kind}, {:?}", input.sizes);
        Ok(same(&what("fill"), fill, library::check_fill(input))?
            + same(&what("book"), book, library::check_book(input))?)
    }

    /// The answer that the faults give.
    fn counted(&mut self, faults: &[Answer]) -> Answer {
        let answer = faults.first().copied().unwrap_or(accepted(0));
        let number = answer[1] as usize;
        self.answers[number] += 1;
        self.followed[number] += u64::from(faults.len() > 1);
        answer
    }
}

impl Display for Checks {
    fn fmt(&self, f: &mut Formatter) -> fmt::Result {
        write!(f, "checks before the walk: {} passed", self.answers[0])?;
        for number in [1, 2, 3, 4, 5, 6, 7, 8, 14] {
            let [answers, followed] = [self.answers[number], self.followed[number]];
            write!(f, "\n  refusal {number}: {answers}, before another fault {followed}")?;
        }
        Ok(())
    }
}
