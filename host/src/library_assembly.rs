//! The library's assembly, by its six numbers.

use jilgyemot::c;
use jilgyemot_host::answer::{Answer, answered};
use jilgyemot_host::walking::limits::Limits;

/// `given` is index, contents, the member list and the URL.
pub fn assemble(given: [&[u8]; 4], limits: &Limits, out: &mut [u8], work: &mut [u8]) -> Answer {
    assemble_or_null(given.map(Some), limits.limit, Some(out), Some(work))
}

/// What is not there is a null pointer of length 0.
pub fn assemble_or_null(
    given: [Option<&[u8]>; 4],
    limit: u64,
    out: Option<&mut [u8]>,
    work: Option<&mut [u8]>,
) -> Answer {
    answered(|answer| c::assemble(given, limit, out, work, answer))
}
