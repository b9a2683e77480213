//! The library's fill, by its six numbers.

use jilgyemot::c;
use jilgyemot_host::answer::{Answer, answered};
use jilgyemot_host::walking::limits::Limits;

/// `given` is index, contents, the host's name and text.
pub fn fill(given: [&[u8]; 4], limits: &Limits, out: &mut [u8], work: &mut [u8]) -> Answer {
    fill_or_null(given.map(Some), limits.limit, limits.allowance, Some(out), Some(work))
}

/// What is not there is a null pointer of length 0.
pub fn fill_or_null(
    given: [Option<&[u8]>; 4],
    limit: u64,
    allowance: u32,
    out: Option<&mut [u8]>,
    work: Option<&mut [u8]>,
) -> Answer {
    answered(|answer| c::fill(given, limit, allowance, out, work, answer))
}
