//! Levels: the shallowest of a text, and what its headings become.

use doc_gen::assembly::{self, Heading};
use jilgyemot_host::outline::lines_of;

use super::{Outcome, library, one, same, walk};

pub fn check(text: &str) -> Outcome {
    let lines = lines_of(text);
    let (found, _) = assembly::headings(&lines);
    let found: Vec<&Heading> = found.iter().collect();
    let top = assembly::shallowest(&found).unwrap_or(0) as u64;
    let mut count = same("shallowest", one(top), library::shallowest(text.as_bytes()))?;
    for target in 1..=7 {
        let shift = assembly::shift_to(&found, target);
        let mut rust = lines.clone();
        let rust = assembly::shift_headings("p", &mut rust, &found, shift, "")
            .map(|()| rust)
            .map_err(|refusal| line_of(&refusal));
        let leaf = shifted(&lines, target as u64, library::shallowest(text.as_bytes())[0]);
        count += same(&format!("headings moved to {target}"), rust, leaf)?;
    }
    Ok(count)
}

/// The line that a refusal names.
pub fn line_of(refusal: &str) -> usize {
    let line = refusal.split(':').nth(1).and_then(|line| line.parse().ok());
    line.expect("a refusal begins with the path and the line")
}

/// The lines with their headings moved, or the line of the first that cannot be.
fn shifted(lines: &[String], target: u64, top: u64) -> Result<Vec<String>, usize> {
    let mut shifted = lines.to_vec();
    for (index, level, text) in walk::headings(lines).0 {
        shifted[index] = moved_line(target, top, level, &text).ok_or(index + 1)?;
    }
    Ok(shifted)
}

/// The line that a heading becomes, as the leaves move it.
pub fn moved_line(target: u64, top: u64, level: usize, text: &str) -> Option<String> {
    match library::moved(target, top, level as u64) {
        [1, level, 0, 0, 0, 0] => Some(format!("{} {text}", "#".repeat(level as usize))),
        [0, 0, 0, 0, 0, 0] => None,
        answer => Some(format!("{answer:?}")),
    }
}

/// Every target, shallowest level and level, and numbers that are none.
pub fn check_all() -> Outcome {
    let numbers = || (0..=9).chain([u64::MAX / 2, u64::MAX]);
    let mut count = 0;
    for target in numbers() {
        for top in numbers() {
            for level in numbers() {
                let what = format!("move to {target}, shallowest {top}, level {level}");
                let leaf = library::moved(target, top, level);
                count += same(&what, rust_moved(target, top, level), leaf)?;
            }
        }
    }
    Ok(count)
}

fn rust_moved(target: u64, top: u64, level: u64) -> library::Answer {
    if !(1..=7).contains(&target) || top > 6 || !(1..=7).contains(&level) {
        return one(2);
    }
    let heading = |level: u64| Heading { index: 0, level: level as usize, text: "x".to_string() };
    let found = heading(top);
    let found: &[&Heading] = if top == 0 { &[] } else { &[&found] };
    let shift = assembly::shift_to(found, target as usize);
    let mut lines = [String::new()];
    match assembly::shift_headings("p", &mut lines, &[&heading(level)], shift, "") {
        Ok(()) => [1, lines[0].len() as u64 - 2, 0, 0, 0, 0],
        Err(_) => [0; 6],
    }
}
