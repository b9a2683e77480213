//! What a case is held to.

use std::fmt::{self, Display, Formatter};

use super::naming::has_staying_run;

/// Where text and faults, or an anchor, come from.
#[derive(Clone, Copy, PartialEq)]
pub enum Source {
    /// What is refused before the walk, which the Rust does not have.
    Refusals,
    Rust,
    /// A heading has a run of underscores that stays. Outside a link's text the Rust drops it.
    Model,
}

impl Source {
    /// Of what these heading texts' anchors come into.
    pub fn of<'a>(mut texts: impl Iterator<Item = &'a [u8]>) -> Self {
        if texts.any(has_staying_run) { Source::Model } else { Source::Rust }
    }
}

/// How many cases are held to what.
#[derive(Default)]
pub struct Sources {
    rust: u64,
    model: u64,
}

impl Sources {
    pub fn count(&mut self, source: Source) {
        match source {
            Source::Refusals => {}
            Source::Rust => self.rust += 1,
            Source::Model => self.model += 1,
        }
    }

    pub fn has_both(&self) -> bool {
        self.rust > 0 && self.model > 0
    }
}

impl Display for Sources {
    fn fmt(&self, f: &mut Formatter) -> fmt::Result {
        write!(f, "held to the Rust: {}, to the model: {}", self.rust, self.model)
    }
}
