//! A walk without limits, as a list of the steps at which L is tested and B is
//! asked for, so one walk gives the answer for all limits.

use crate::answer::Answer;

/// The file is its record's number, or 0 for a host and for the list; the line is 0
/// where there is none.
#[derive(Clone, Copy, PartialEq, Debug, Default)]
pub struct Place {
    pub file: usize,
    pub line: usize,
}

#[derive(Clone, Copy)]
pub enum Step {
    /// A running text of this length is tested.
    Sized { length: usize, place: Place },
    /// A region takes a file in.
    Taken { place: Place },
}

/// A refusal; the second place is told at 19 alone.
#[derive(Clone, Copy, PartialEq, Debug)]
pub struct Fault {
    pub number: u64,
    pub place: Place,
    pub second: Place,
}

impl Fault {
    pub fn at(number: u64, place: Place) -> Self {
        Fault { number, place, second: Place::default() }
    }

    fn answer(&self) -> Answer {
        let Fault { number, place, second } = self;
        let [file, line] = [place.file, place.line].map(|number| number as u64);
        [2, *number, file, line, second.file as u64, second.line as u64]
    }
}

#[derive(Clone, PartialEq)]
pub enum End {
    Text(Vec<u8>),
    NoRegion,
    Fault(Fault),
    /// The walk takes in more files than it may here.
    Unfinished,
}

pub struct Walk {
    pub steps: Vec<Step>,
    pub end: End,
    /// How many files the longest chain has behind the host.
    pub deepest: usize,
}

impl Walk {
    /// A walk that ends before its first step.
    pub fn ended(end: End) -> Self {
        Walk { steps: Vec::new(), end, deepest: 0 }
    }

    pub fn taken(&self) -> usize {
        self.steps.iter().filter(|step| matches!(step, Step::Taken { .. })).count()
    }

    /// The six numbers with these limits, refusal 8 left out; none where the walk
    /// is unfinished.
    pub fn answer(&self, limit: u64, allowance: u32) -> Option<Answer> {
        let mut taken = 0;
        for step in &self.steps {
            match *step {
                Step::Sized { length, place } if length as u64 > limit => {
                    return Some(Fault::at(17, place).answer());
                }
                Step::Sized { .. } => {}
                Step::Taken { place } if taken == u64::from(allowance) => {
                    return Some(Fault::at(15, place).answer());
                }
                Step::Taken { .. } => taken += 1,
            }
        }
        match &self.end {
            End::Text(text) => Some([0, text.len() as u64, taken, 0, 0, 0]),
            End::NoRegion => Some([1, 0, 0, 0, 0, 0]),
            End::Fault(fault) => Some(fault.answer()),
            End::Unfinished => None,
        }
    }
}
