//! One call of the library on lent memory, every byte of it looked at.

use jilgyemot_host::answer::Answer;
use jilgyemot_host::oracle::Expected;

use crate::library;

/// Bytes kept before and behind the lent output.
const GUARD: usize = 64;

/// The memory lent to the calls, kept from one to the next.
#[derive(Default)]
pub struct Lent {
    text: Vec<u8>,
    out: Vec<u8>,
    calls: usize,
}

impl Lent {
    /// Calls the library and says what differs from `expected`. Pattern byte
    /// and alignment of both buffers change from call to call.
    pub fn call(&mut self, text: &[u8], size: usize, expected: &Expected) -> Result<(), String> {
        self.calls += 1;
        let pattern = (self.calls * 37) as u8;
        let start = self.calls % 8;
        self.text.clear();
        self.text.resize(start, pattern);
        self.text.extend_from_slice(text);
        let from = GUARD + self.calls / 8 % 8;
        self.out.clear();
        self.out.resize(from + size + GUARD, pattern);

        let answer = library::scan(&self.text[start..], &mut self.out[from..from + size]);

        let written = expected.written(size);
        let (before, out) = self.out.split_at(from);
        let same = answer == expected.answer(size)
            && before.iter().all(|&byte| byte == pattern)
            && out.starts_with(written)
            && out[written.len()..].iter().all(|&byte| byte == pattern)
            && self.text[start..] == *text;
        if same { Ok(()) } else { Err(self.report(text, size, pattern, expected, answer)) }
    }

    fn report(
        &self,
        text: &[u8],
        size: usize,
        pattern: u8,
        expected: &Expected,
        answer: Answer,
    ) -> String {
        format!(
            "text of {} bytes, output of {size} filled with {pattern:02X}\n\
             text     {}\n\
             expected {:?}\n\
             library  {answer:?}\n\
             expected at the output's start {}\n\
             library, with {GUARD} bytes or more at both ends {}",
            text.len(),
            text.escape_ascii(),
            expected.answer(size),
            expected.written(size).escape_ascii(),
            self.out.escape_ascii(),
        )
    }
}
