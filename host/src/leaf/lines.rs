//! The bytes of a line and of a buffer: what is blank, heading lines that are
//! written, and buffers that are cleared.

use super::{AROUND, Outcome, lent, library, one, same, same_bytes};

/// A text by itself, and as a heading of a level at a place of outputs that have
/// room and that have none.
pub fn check(text: &str, at: usize, level: usize) -> Outcome {
    let blank = u64::from(text.trim().is_empty());
    let mut count = same("blank", one(blank), library::blank(text.as_bytes()))?;
    let end = at + level + 1 + text.len();
    for size in [end + 3, end, end - 1, at, at.saturating_sub(1), 0] {
        count += check_put(text, at as u64, level as u64, size)?;
    }
    for (at, level) in no_lines(text, at as u64, level as u64) {
        count += check_put(text, at, level, end + 9)?;
    }
    Ok(count)
}

/// Places and levels that no output has room for: the place after the line is
/// 2^64 or a bit more, or the level is above 6.
fn no_lines(text: &str, at: u64, level: u64) -> [(u64, u64); 6] {
    let wraps = 0u64.wrapping_sub(level + 1 + text.len() as u64);
    let far = level + (1 << 32);
    [(wraps, level), (wraps + 1, level), (u64::MAX, level), (at, 7), (at, far), (at, u64::MAX)]
}

/// The line as it is put together here, in an output of some size.
fn check_put(text: &str, at: u64, level: u64, size: usize) -> Outcome {
    let mut out = lent(size);
    let mut expected = out.clone();
    let mut answer = one(0);
    let end = u128::from(at) + u128::from(level) + 1 + text.len() as u128;
    if level <= 6 && end <= size as u128 {
        let line = format!("{} {text}", "#".repeat(level as usize));
        expected[AROUND + at as usize..][..line.len()].copy_from_slice(line.as_bytes());
        answer = [1, end as u64, 0, 0, 0, 0];
    }
    let what = format!("a heading of level {level} at {at} of {size}");
    let leaf = library::put_heading(at, level, text.as_bytes(), &mut out[AROUND..][..size]);
    Ok(same(&what, answer, leaf)? + same_bytes(&what, &expected, &out)?)
}

/// Every byte by itself and between space bytes, and buffers of every size up
/// to 4,200 from eight places on.
pub fn check_all() -> Outcome {
    let mut count = 0;
    for byte in 0..=255 {
        let blank = one(u64::from(matches!(byte, 0x09..=0x0D | 0x20)));
        for text in [&[byte][..], &[b' ', byte, b'\t']] {
            count += same(&format!("blank {text:?}"), blank, library::blank(text))?;
        }
    }
    for size in 0..=4_200 {
        for start in AROUND..AROUND + 8 {
            count += check_clear(start, size)?;
        }
    }
    Ok(count)
}

fn check_clear(start: usize, size: usize) -> Outcome {
    let mut out = lent(size + 8);
    let mut expected = out.clone();
    expected[start..][..size].fill(0);
    let answer = library::clear(&mut out[start..][..size]);
    let what = format!("a buffer of {size}, cleared");
    Ok(same(&what, one(0), answer)? + same_bytes(&what, &expected, &out)?)
}
