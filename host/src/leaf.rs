//! The leaf functions beside the Rust and document 01, a file for each part.

pub mod checks;
pub mod levels;
pub mod library;
pub mod lines;
pub mod links;
pub mod members;
pub mod paths;
pub mod regions;
pub mod titles;
pub mod walk;

use std::fmt::Debug;

/// How many answers were compared, or what is wrong.
pub type Outcome = Result<u64, String>;

/// One answer, as it has to be and as a leaf gives it.
pub fn same<T: PartialEq + Debug>(what: &str, expected: T, leaf: T) -> Outcome {
    if expected == leaf {
        return Ok(1);
    }
    Err(format!("{what}\nexpected {expected:?}\nleaf     {leaf:?}"))
}

/// The same for bytes.
pub fn same_bytes(what: &str, expected: &[u8], leaf: &[u8]) -> Outcome {
    if expected == leaf {
        return Ok(1);
    }
    Err(format!("{what}\nexpected {}\nleaf     {}", expected.escape_ascii(), leaf.escape_ascii()))
}

/// An answer that is one number.
pub fn one(number: u64) -> library::Answer {
    [number, 0, 0, 0, 0, 0]
}

/// How many bytes stand around a lent output.
pub const AROUND: usize = 8;

/// An output of some size with `AROUND` bytes on both sides, all of one pattern.
pub fn lent(size: usize) -> Vec<u8> {
    vec![0xA5; AROUND + size + AROUND]
}
