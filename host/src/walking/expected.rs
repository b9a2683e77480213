//! What a call has to answer at any limits.

use super::limits::Limits;
use super::source::Source;
use super::steps::{End, Fault, Walk};
use crate::answer::Answer;
use crate::refusals::{Sizes, short_sizes};

pub struct Expected {
    /// One of 1 to 7.
    pub refused: Option<Answer>,
    pub walk: Walk,
    pub source: Source,
    /// How many texts the work buffer holds, besides two.
    pub texts: usize,
}

impl Expected {
    /// Of a case that is refused before any limit is looked at.
    pub fn refused(answer: Answer) -> Self {
        let walk = Walk::ended(End::NoRegion);
        Expected { refused: Some(answer), walk, source: Source::Refusals, texts: 0 }
    }

    /// The six numbers; none where the walk is unfinished.
    pub fn answer(&self, limits: &Limits) -> Option<Answer> {
        let &Limits { limit, allowance, out, work } = limits;
        let sizes = Sizes { limit, out: out as u64, work: work as u64 };
        let refused = self.refused.or_else(|| short_sizes(sizes, self.texts));
        refused.or_else(|| self.walk.answer(limit, allowance))
    }

    /// What the output begins with after a call with this answer.
    pub fn written(&self, answer: &Answer) -> &[u8] {
        match &self.walk.end {
            End::Text(text) if answer[0] == 0 => text,
            _ => &[],
        }
    }
}

/// Says where the model and the Rust differ. Where there is a text, the Rust has to read
/// as many files as the model takes in.
pub fn agreed(model: &Walk, rust: &End, reads: usize) -> Result<(), String> {
    let counted = !matches!(rust, End::Text(_)) || model.taken() == reads;
    if model.end == *rust && counted {
        return Ok(());
    }
    let [model, rust] = [(&model.end, model.taken()), (rust, reads)].map(shown);
    Err(format!("model {model}\nRust  {rust}"))
}

/// Says where an assembly by the model and one by the Rust differ in more than the anchors
/// of headings whose underscores stay. Such an anchor has as many underscores as the Rust's
/// or more and is the same else; which headings share one cannot be told from the Rust's.
pub fn agreed_but_for_underscores(model: &End, rust: &End) -> Result<(), String> {
    let shares = |end: &End| matches!(end, End::Fault(Fault { number: 19, .. }));
    if shares(model) || shares(rust) || without_underscores(model) == without_underscores(rust) {
        return Ok(());
    }
    let [model, rust] = [model, rust].map(|end| shown((end, 0)));
    Err(format!("model {model}\nRust  {rust}\nalso without underscores"))
}

fn without_underscores(end: &End) -> End {
    let other = |byte: &&u8| **byte != b'_';
    match end {
        End::Text(text) => End::Text(text.iter().filter(other).copied().collect()),
        end => end.clone(),
    }
}

fn shown((end, taken): (&End, usize)) -> String {
    let end = match end {
        End::Text(text) => format!("text {}", text.escape_ascii()),
        End::NoRegion => "no region".to_string(),
        End::Fault(fault) => format!("refusal {fault:?}"),
        End::Unfinished => "unfinished".to_string(),
    };
    format!("{end}, {taken} files taken in")
}
