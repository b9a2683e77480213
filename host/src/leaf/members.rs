//! Hand-written contents: one member, assembled by the Rust and by the leaves.

use doc_gen::assembly::{self, Member};
use jilgyemot_host::outline::lines_of;

use super::{Outcome, levels, library, same, walk};

/// A refusal for a member without a title, which is of no line.
const NO_TITLE: usize = 0;

/// A text as a member. Links are not rewritten by the leaves, so it has none.
pub fn check(text: &str) -> Outcome {
    let text = text.replace("](", "] (");
    let member = Member { path: "p".to_string(), text: text.clone() };
    let rust = assembly::assemble(&[member], "r").map_err(|refusal| {
        if refusal.contains(": no leading H1") { NO_TITLE } else { levels::line_of(&refusal) }
    });
    same("the member, assembled", rust, assembled(&text))
}

fn assembled(text: &str) -> Result<String, usize> {
    let mut lines = kept(text);
    while lines.last().is_some_and(|line| line.trim().is_empty()) {
        lines.pop();
    }
    let (mut found, _) = walk::headings(&lines);
    let title = found.iter().position(|(_, level, _)| *level == 1).ok_or(NO_TITLE)?;
    found.remove(title);
    let top = found.iter().map(|(_, level, _)| *level).min().unwrap_or(0);
    for (index, level, text) in found {
        lines[index] = levels::moved_line(2, top as u64, level, &text).ok_or(index + 1)?;
    }
    Ok(lines.join("\n") + "\n")
}

/// The lines that are not dropped.
fn kept(text: &str) -> Vec<String> {
    let mut within = 0;
    let mut lines = lines_of(text);
    lines.retain(|line| {
        within = library::drops(within, line.as_bytes())[0];
        within == 0
    });
    lines
}
