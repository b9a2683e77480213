//! One call of the library on lent memory, every byte of it looked at.

use super::limits::Limits;
use crate::answer::Answer;

/// A call of the library: what is handed in, limits, output and work.
pub type Function = fn([&[u8]; 4], &Limits, &mut [u8], &mut [u8]) -> Answer;

/// Bytes kept before and behind the lent buffers.
const GUARD: usize = 64;

/// A buffer lent to a call, with memory around it.
#[derive(Default)]
struct Buffer {
    bytes: Vec<u8>,
    from: usize,
    size: usize,
    pattern: u8,
}

impl Buffer {
    /// Everything is the pattern, and the buffer starts at a place of its own.
    fn renew(&mut self, size: usize, pattern: u8, shift: usize) {
        *self =
            Buffer { bytes: std::mem::take(&mut self.bytes), from: GUARD + shift, size, pattern };
        self.bytes.clear();
        self.bytes.resize(self.from + size + GUARD, pattern);
    }

    fn lent(&mut self) -> &mut [u8] {
        &mut self.bytes[self.from..self.from + self.size]
    }

    fn after(&self) -> &[u8] {
        &self.bytes[self.from..self.from + self.size]
    }

    fn is_kept_around(&self) -> bool {
        let (before, lent) = self.bytes.split_at(self.from);
        only(before, self.pattern) && only(&lent[self.size..], self.pattern)
    }
}

/// Whether all bytes are this one; in blocks, which is fast.
fn only(bytes: &[u8], byte: u8) -> bool {
    bytes.chunks(512).all(|block| block.iter().fold(0, |other, &at| other | (at ^ byte)) == 0)
}

/// The memory lent to the calls, kept from one to the next.
#[derive(Default)]
pub struct Lent {
    inputs: [Vec<u8>; 4],
    out: Buffer,
    work: Buffer,
    calls: usize,
}

impl Lent {
    /// Calls the library and says what differs from an expected answer and what the
    /// output has to begin with. Pattern byte and alignment of all buffers change
    /// from call to call. The work buffer has no zero before.
    pub fn call(
        &mut self,
        function: Function,
        given: [&[u8]; 4],
        limits: &Limits,
        expected: &Answer,
        written: &[u8],
    ) -> Result<(), String> {
        let starts = self.renew(given, limits);
        let inputs = std::array::from_fn(|at| &self.inputs[at][starts[at]..]);
        let answer = function(inputs, limits, self.out.lent(), self.work.lent());

        let out = self.out.after();
        let behind = out.get(written.len()..).unwrap_or(out);
        let checks = [
            ("the answer", answer == *expected),
            ("the output's start", out.starts_with(written)),
            ("the output behind the text", only(behind, self.out.pattern)),
            ("the bytes around the output", self.out.is_kept_around()),
            ("work, which is not zero", only(self.work.after(), 0)),
            ("the bytes around work", self.work.is_kept_around()),
            ("what was handed in", inputs == given),
        ];
        let wrong: Vec<_> =
            checks.iter().filter(|(_, same)| !same).map(|(what, _)| *what).collect();
        if wrong.is_empty() {
            return Ok(());
        }
        let shown = out.len().min(written.len() + GUARD);
        Err(format!(
            "wrong: {}\n{limits:?}, buffers filled with {:02X}\n\
             expected {expected:?}\nlibrary  {answer:?}\n\
             expected at the output's start {}\nlibrary, with some bytes behind    {}",
            wrong.join(", "),
            self.out.pattern,
            written.escape_ascii(),
            out[..shown].escape_ascii(),
        ))
    }

    /// Copies what is handed in, and renews the buffers. The answer is where the copies
    /// start.
    fn renew(&mut self, given: [&[u8]; 4], limits: &Limits) -> [usize; 4] {
        self.calls += 1;
        let pattern = (self.calls * 37) as u8;
        let starts = [1, 3, 5, 7].map(|step| self.calls * step % 8);
        for ((input, from), &start) in self.inputs.iter_mut().zip(given).zip(&starts) {
            input.clear();
            input.resize(start, pattern);
            input.extend_from_slice(from);
        }
        self.out.renew(limits.out, pattern, self.calls / 8 % 8);
        self.work.renew(limits.work, pattern | 1, self.calls / 64 % 8);
        starts
    }
}
