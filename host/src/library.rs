//! The library's scan, by its six numbers.

use jilgyemot::c;
use jilgyemot_host::answer::{Answer, answered};

pub fn scan(text: &[u8], out: &mut [u8]) -> Answer {
    scan_or_null(Some(text), Some(out))
}

/// A text or an output that is not there is a null pointer of length 0.
pub fn scan_or_null(text: Option<&[u8]>, out: Option<&mut [u8]>) -> Answer {
    answered(|answer| c::scan(text, out, answer))
}
