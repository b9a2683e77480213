//! Compares the library's scan with the Rust's on generated texts: the six
//! numbers, and every byte of the output and around both.

mod lent;
mod library;

use jilgyemot_host::comparison::{Options, report};
use jilgyemot_host::generate::Texts;
use jilgyemot_host::oracle::Expected;
use jilgyemot_host::random::Random;
use jilgyemot_host::shrink::shrink;
use lent::Lent;

/// Compares one text at several output sizes; a case is one call. The answer
/// is the number of cases, or what is wrong.
fn compare(text: &[u8], random: &mut Random, lent: &mut Lent) -> Result<u64, String> {
    let expected = Expected::of(text);
    let sizes = output_sizes(expected.full_size(), random);
    for &size in &sizes {
        lent.call(text, size, &expected)?;
    }
    Ok(sizes.len() as u64)
}

/// Ample, exactly full, one short, none at all, and a random short size.
fn output_sizes(full: usize, random: &mut Random) -> Vec<usize> {
    let mut sizes = vec![full + random.within(1, 200), full];
    if full > 0 {
        sizes.extend([full - 1, random.below(full), 0]);
    }
    sizes
}

/// A text and an output that are there or are null, the text empty or not. The
/// answer is the number of cases, or what is wrong.
fn compare_null() -> Result<u64, String> {
    const PATTERN: u8 = 0xA5;
    let texts: [Option<&[u8]>; 5] =
        [None, Some(b""), Some(b"a"), Some(b"<!--[/]-->"), Some(b"\n\x80")];
    let mut cases = 0;
    for text in texts {
        let expected = Expected::of(text.unwrap_or_default());
        for size in [None, Some(0), Some(64)] {
            let mut out = vec![PATTERN; size.unwrap_or(0)];
            let answer = library::scan_or_null(text, size.map(|_| &mut out[..]));
            let written = expected.written(out.len());
            let same = answer == expected.answer(out.len())
                && out.starts_with(written)
                && out[written.len()..].iter().all(|&byte| byte == PATTERN);
            if !same {
                let expected = expected.answer(out.len());
                let case = format!("text {text:?}, output of {size:?} bytes, None for null");
                return Err(format!("{case}\nexpected {expected:?}\nlibrary  {answer:?}"));
            }
            cases += 1;
        }
    }
    Ok(cases)
}

fn run(options: &Options) -> Result<u64, String> {
    let more = options.more();
    let mut texts = Texts::new(options.seed);
    let mut random = Random::new(options.seed);
    let mut lent = Lent::default();
    let mut cases = compare_null()?;
    while more(cases) {
        let text = texts.next();
        match compare(&text, &mut random, &mut lent) {
            Ok(number) => cases += number,
            Err(mut wrong) => {
                shrink(text, |text| {
                    let again =
                        compare(text, &mut random, &mut lent).map_err(|again| wrong = again);
                    again.is_err()
                });
                return Err(format!("{wrong}\nafter {cases} cases"));
            }
        }
    }
    println!("all texts of up to {} parts", texts.parts.complete());
    println!("all texts of up to {} whole lines", texts.lines.complete());
    Ok(cases)
}

fn main() {
    report("compare", run);
}
