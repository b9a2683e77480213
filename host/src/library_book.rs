//! The library's book, by its six numbers.

use jilgyemot::c;
use jilgyemot_host::answer::{Answer, answered};
use jilgyemot_host::walking::limits::Limits;

/// `given` is index, contents, the member list and the URL.
pub fn book(given: [&[u8]; 4], limits: &Limits, out: &mut [u8], work: &mut [u8]) -> Answer {
    book_or_null(given.map(Some), limits.limit, limits.allowance, Some(out), Some(work))
}

/// What is not there is a null pointer of length 0.
pub fn book_or_null(
    given: [Option<&[u8]>; 4],
    limit: u64,
    allowance: u32,
    out: Option<&mut [u8]>,
    work: Option<&mut [u8]>,
) -> Answer {
    answered(|answer| c::book(given, limit, allowance, out, work, answer))
}
