//! What the comparisons of calls on a list share.

use super::case::Case;
use super::examples::{CHECKS, of_example};
use crate::walking::comparing::Comparison;
use crate::walking::limits::Limits;

/// K10 to K12 held to what document 01 says of them, and these and other examples at every
/// limit that tells. The answer is the number of cases.
pub fn compare_examples(
    comparison: &mut Comparison<Case>,
    examples: impl Iterator<Item = Case>,
) -> Result<u64, String> {
    let mut calls = 0;
    for (example, answer, text) in CHECKS {
        let case = of_example(example);
        comparison.check(&case, &Limits::of(1_000, 0, 4), (answer, text))?;
        calls += 1 + comparison.compare_at_edges(&case)?;
    }
    let checks = CHECKS.into_iter().map(|(example, ..)| of_example(example));
    for case in checks.chain(examples) {
        calls += comparison.compare_at_all(&case)?;
    }
    Ok(calls)
}
