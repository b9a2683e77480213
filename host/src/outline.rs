//! The outline of a text, as `replay` prints it, from the Rust's answers and, where
//! underscores stay in an anchor, from the model's.

use std::fmt::Write;

use doc_gen::assembly::{self, Heading};

use crate::anchor::anchor;

pub fn lines_of(text: &str) -> Vec<String> {
    text.split('\n').map(str::to_string).collect()
}

/// Where a heading's text starts and ends in its line: the Rust gives only the
/// text. An empty one stands at the line's end.
pub fn text_place(line: &str, level: usize, text: &str) -> (usize, usize) {
    let start = line.len() - line[level..].trim_start().len();
    let end = start + text.len();
    assert_eq!(&line[start..end], text);
    (start, end)
}

/// A row for each heading and each quoted line.
pub fn outline(text: &str) -> String {
    let lines = lines_of(text);
    let (found, quoted) = assembly::headings(&lines);
    let mut found = found.iter().peekable();
    let mut out = String::new();
    for (index, line) in lines.iter().enumerate() {
        if quoted[index] {
            writeln!(out, "quoted\t{}", index + 1).expect("a string takes every write");
        }
        if let Some(heading) = found.next_if(|heading| heading.index == index) {
            out.push_str(&heading_row(heading, line));
        }
    }
    assert!(found.next().is_none(), "a heading on no line of its own");
    out
}

fn heading_row(heading: &Heading, line: &str) -> String {
    let Heading { index, level, text } = heading;
    let (start, end) = text_place(line, *level, text);
    let (anchor, _) = anchor(text).expect("a title is assembled, and the model agrees");
    format!("heading\t{}\t{level}\t{start}\t{end}\t{anchor}\n", index + 1)
}
