//! What a scan has to answer, made from the answers of the Rust `marker::scan`.
//!
//! The Rust gives the parts of a marker as strings and a problem as a sentence.
//! Document 01's listing has their places and the problem's number instead.

use std::fmt::Write;

use doc_gen::marker::{self, Fragment, Problem, Scan, Span};

use crate::answer::{Answer, accepted, refused};

const OPEN: &str = "<!--[";
const SPEC_END: &str = "]-->";
const CLOSE: &str = "<!--[/]-->";

/// A text's scan, before the size of the output is looked at.
pub enum Expected {
    Listing(String),
    /// A byte 80 hex or above, the first of them on this line.
    Wide {
        line: usize,
    },
}

impl Expected {
    pub fn of(text: &[u8]) -> Self {
        if let Some(at) = text.iter().position(|byte| !byte.is_ascii()) {
            let feeds = text[..at].iter().filter(|&&byte| byte == b'\n').count();
            return Expected::Wide { line: 1 + feeds };
        }
        let text = str::from_utf8(text).expect("ASCII is UTF-8");
        Expected::Listing(listing(text, &marker::scan(text)))
    }

    /// The least size of an output that is not too short.
    pub fn full_size(&self) -> usize {
        match self {
            Expected::Listing(listing) => listing.len(),
            Expected::Wide { .. } => 0,
        }
    }

    pub fn answer(&self, out_size: usize) -> Answer {
        match self {
            Expected::Listing(listing) if listing.len() <= out_size => accepted(listing.len()),
            Expected::Listing(_) => refused(17, 0),
            Expected::Wide { line } => refused(5, *line),
        }
    }

    /// What the output begins with after the call; its other bytes stay.
    pub fn written(&self, out_size: usize) -> &[u8] {
        match self {
            Expected::Listing(listing) if listing.len() <= out_size => listing.as_bytes(),
            _ => &[],
        }
    }
}

fn listing(text: &str, scan: &Scan) -> String {
    let mut out = String::new();
    if !scan.is_marked() {
        return out;
    }
    let lines = line_starts(text);
    list_spans(text, &lines, &scan.spans, &mut out);
    for region in &scan.fragments {
        list_region(text, &lines, region, &mut out);
    }
    for problem in &scan.problems {
        row(&mut out, "problem", &[problem.line, number(problem)]);
    }
    out
}

pub fn line_starts(text: &str) -> Vec<usize> {
    let feeds = text.match_indices('\n').map(|(at, _)| at + 1);
    std::iter::once(0).chain(feeds).collect()
}

/// The rest of the line from `at` on.
fn line_from(text: &str, at: usize) -> &str {
    text[at..].lines().next().unwrap_or("")
}

/// A span begins at the first opening marker past the one before it on its line.
fn list_spans(text: &str, lines: &[usize], spans: &[Span], out: &mut String) {
    let mut from = 0;
    for span in spans {
        from = from.max(lines[span.line - 1]);
        let skipped = line_from(text, from).find(OPEN);
        let spec = past(text, from + skipped.unwrap_or(0), OPEN);
        let spec_end = past(text, spec, &span.spec);
        let value = past(text, spec_end, SPEC_END);
        let value_end = past(text, value, &span.text);
        from = past(text, value_end, CLOSE);
        row(out, "span", &[span.line, spec, spec_end, value, value_end]);
    }
}

fn list_region(text: &str, lines: &[usize], region: &Fragment, out: &mut String) {
    let (path, path_end) = path_place(text, lines, region);
    let peer = usize::from(region.peer);
    row(out, "region", &[region.open + 1, region.close + 1, path, path_end, peer]);
}

/// Where a region's path starts and ends; `lines` are the line starts.
pub fn path_place(text: &str, lines: &[usize], region: &Fragment) -> (usize, usize) {
    let line = line_from(text, lines[region.open]);
    let indent = line.len() - line.trim_start().len();
    let spec = past(text, lines[region.open] + indent, OPEN);
    let path = past(text, spec, "fragment:");
    let path_end = past(text, path, &region.path);
    let spec_end = past(text, path_end, if region.peer { ":peer" } else { "" });
    let end = past(text, spec_end, SPEC_END);
    assert_eq!(line_from(text, end).trim(), "", "behind the region's opener");
    assert_eq!(line_from(text, lines[region.close]).trim(), CLOSE);
    (path, path_end)
}

/// The place behind `part`, which has to stand at `at`.
fn past(text: &str, at: usize, part: &str) -> usize {
    assert!(text[at..].starts_with(part), "{part:?} does not stand at {at}");
    at + part.len()
}

fn row(out: &mut String, kind: &str, fields: &[usize]) {
    out.push_str(kind);
    for field in fields {
        write!(out, "\t{field}").expect("a string takes every write");
    }
    out.push('\n');
}

/// Document 01's number of a problem. Where the sentence holds a part of the
/// text, its end (at 4 its start) cannot be read as another problem's.
fn number(problem: &Problem) -> usize {
    let detail = problem.detail.as_str();
    let starts = |part: &str| detail.starts_with(part);
    let number = match detail {
        _ if detail.ends_with("' is not closed on its own line") => 8,
        _ if detail.ends_with("' contains another marker") => 9,
        _ if starts("fragment region '") => 4,
        _ if starts("a marker inside a fenced code block: ") => 1,
        _ if starts("a fragment region inside another fragment region: ") => 2,
        _ if starts("a fragment marker sharing its line: ") => 3,
        "an unclosed fenced code block" => 5,
        "a closing marker with no opening marker before it" => 6,
        "an opening marker with no ']-->'" => 7,
        "an opening marker with no spec" => 10,
        _ => panic!("no number is known for the problem {detail:?}"),
    };
    let fragment = problem.about == marker::About::Fragment;
    assert_eq!(fragment, matches!(number, 2..=4), "{detail:?}");
    number
}
