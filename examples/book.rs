//! Makes a book of notes from Rust and prints it; then one that takes in too many files.

use std::io::Write;

use jilgyemot::{Answer, FileSet, Limits, Members, book, work_size};

/// No text made on the way has more bytes, and neither has the book.
const LIMIT: usize = 512;

const GAUGE: &str = "# Gauge\n\nRead it at the weir.\n\n\
    <!--[fragment:docs/crews.md]-->\n<!--[/]-->\n";
const PUMP: &str = "# Pump\n\n## Limit\n\n<!--[fragment:docs/limit.md]-->\n<!--[/]-->\n\n\
    <!--[fragment:docs/crews.md]-->\n<!--[/]-->\n";

/// Names and texts.
const NOTES: [(&str, &str); 4] = [
    ("docs/gauge.md", GAUGE),
    ("docs/pump.md", PUMP),
    ("docs/limit.md", "# By day\n\n6 m, as read at [the gauge](gauge.md).\n"),
    ("docs/crews.md", "Two at a time, by [the rules](../rules.md).\n"),
];

fn main() {
    let (mut index, mut contents) = (String::new(), String::new());
    for (name, text) in NOTES {
        index += &format!("{name}\t{}\t{}\n", contents.len(), text.len());
        contents += text;
    }
    let files = FileSet { index: index.as_bytes(), contents: contents.as_bytes() };
    let list = b"docs/gauge.md\ndocs/pump.md\n";
    let members = Members { list, url: b"https://river.example/notes" };
    let mut out = [0; LIMIT];
    let mut work = [0; work_size(NOTES.len(), 2, LIMIT)];
    for allowance in [3, 2] {
        let limits = Limits { text: LIMIT, files: allowance };
        match book(files, members, limits, &mut out, &mut work) {
            Answer::Accepted { text, files } => {
                std::io::stdout().write_all(text).expect("standard output");
                println!("{files} files taken in");
            }
            Answer::NoRegion => unreachable!("only a fill answers so"),
            Answer::Refused(refusal) => {
                println!("refused {}, {}", refusal.number(), refusal.place());
            }
        }
    }
}
