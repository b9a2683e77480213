//! The walk: the headings and quoted lines of a text, and each step by itself.

use doc_gen::assembly;
use jilgyemot_host::outline::{lines_of, text_place};

use super::library::{self, Answer};
use super::{Outcome, same};

/// Index, level and text of a heading.
pub type Found = (usize, usize, String);

/// The headings, and of each line whether it is quoted, as the leaves find them.
pub fn headings(lines: &[String]) -> (Vec<Found>, Vec<bool>) {
    let (mut fence, mut comment) = (0, 0);
    let (mut found, mut quoted) = (Vec::new(), Vec::new());
    for (index, line) in lines.iter().enumerate() {
        let step = library::step(fence, comment, line.as_bytes());
        if step[0] == 1 {
            found.push((index, step[1] as usize, text_of(step, line)));
        }
        quoted.push(step[0] == 2);
        (fence, comment) = (step[4], step[5]);
    }
    (found, quoted)
}

/// The part of the line that a step names.
fn text_of(step: Answer, line: &str) -> String {
    let text = line.get(step[2] as usize..step[3] as usize);
    text.unwrap_or("no part of the line").to_string()
}

fn rust_headings(lines: &[String]) -> (Vec<Found>, Vec<bool>) {
    let (found, literal) = assembly::headings(lines);
    (found.into_iter().map(|found| (found.index, found.level, found.text)).collect(), literal)
}

/// States as numbers, and the lines that lead the Rust there. A fence other
/// than 1 and 2 is outside, and any comment but 0 is open.
const STATES: [(u64, u64, &[&str]); 8] = [
    (0, 0, &[]),
    (0, 1, &["<!--"]),
    (1, 0, &["```"]),
    (1, 1, &["<!--", "```"]),
    (2, 0, &["~~~"]),
    (2, 1, &["<!--", "~~~"]),
    (3, u64::MAX, &["<!--"]),
    (u64::MAX, 0, &[]),
];

pub fn check(text: &str) -> Outcome {
    let lines = lines_of(text);
    let mut count = same("headings, quoted lines", rust_headings(&lines), headings(&lines))?;
    for line in &lines {
        for (fence, comment, before) in STATES {
            let what = format!("step of {line:?}, fence {fence}, comment {comment}");
            let leaf = library::step(fence, comment, line.as_bytes());
            count += same(&what, rust_step(before, line), (leaf, text_of(leaf, line)))?;
        }
    }
    Ok(count)
}

/// The step as the Rust has it, and a heading's text.
fn rust_step(before: &[&str], line: &str) -> (Answer, String) {
    let mut lines: Vec<String> = before.iter().map(|before| before.to_string()).collect();
    lines.push(line.to_string());
    let (found, literal) = rust_headings(&lines);
    let (fence, comment) = state_after(&lines);
    match found.last() {
        Some((index, level, text)) if *index == before.len() => {
            let (start, end) = text_place(line, *level, text);
            ([1, *level as u64, start as u64, end as u64, fence, comment], text.clone())
        }
        _ => {
            let kind = if literal[before.len()] { 2 } else { 0 };
            ([kind, 0, 0, 0, fence, comment], String::new())
        }
    }
}

/// The Rust's state after some lines, seen by what it makes of further ones.
fn state_after(lines: &[String]) -> (u64, u64) {
    let then = |more: [&str; 2]| {
        let more = more.map(str::to_string);
        rust_headings(&[lines, &more].concat())
    };
    let quoted = |more| then(more).1.last() == Some(&true);
    let fence = match () {
        () if !quoted(["x", "x"]) => 0,
        () if !quoted(["```", "x"]) => 1,
        () => 2,
    };
    let closer = ["x", "```", "~~~"][fence];
    let last = then([closer, "# x"]).0.last().map(|found| found.0);
    (fence as u64, u64::from(last != Some(lines.len() + 1)))
}
