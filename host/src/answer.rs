//! The six numbers that a call answers with.

use std::hint::black_box;
use std::sync::Once;

/// Accepted: `0, length, files taken in, 0, 0, 0`.
/// Refused: `2, number, file, line, second file, second line`.
pub type Answer = [u64; 6];

/// An accepted scan, which takes in no file.
pub fn accepted(length: usize) -> Answer {
    [0, length as u64, 0, 0, 0, 0]
}

/// A refusal in the text handed in, which is file 0, with no second place.
pub fn refused(number: u64, line: usize) -> Answer {
    [2, number, 0, line as u64, 0, 0]
}

/// No answer holds this number, so one that a call leaves unwritten is seen.
const UNWRITTEN: u64 = u64::MAX;

/// Stands before and behind the six numbers.
const GUARD: u64 = 0xA5A5_A5A5_A5A5_A5A5;
const GUARDS: usize = 4;

/// Six numbers lent to a call, with guards around them.
#[repr(C)]
struct Lent {
    before: [u64; GUARDS],
    answer: Answer,
    behind: [u64; GUARDS],
}

/// What a call writes as its answer. For a call that writes before or behind the six
/// numbers it is six guards, which no call answers, so every comparison fails.
pub fn answered(call: impl FnOnce(&mut Answer)) -> Answer {
    let guards = [GUARD; GUARDS];
    let mut lent = Lent { before: guards, answer: [UNWRITTEN; 6], behind: guards };
    call(&mut lent.answer);
    // No guard was lent, so the compiler might take them for unchanged without reading.
    let lent = black_box(&mut lent);
    if lent.before == guards && lent.behind == guards {
        return lent.answer;
    }
    static SAID: Once = Once::new();
    SAID.call_once(|| eprintln!("a call wrote before or behind its six numbers"));
    [GUARD; 6]
}
