//! Assembles notes from Rust and prints the text; then a list that is refused.

use std::io::Write;

use jilgyemot::{FileSet, Members, assemble, work_size};

/// The assembled text has no more bytes.
const LIMIT: usize = 256;

/// Names and texts.
const NOTES: [(&str, &str); 3] = [
    ("docs/gauge.md", "# Gauge\n\n# Datum\n\nRead it with [the pump](pump.md).\n"),
    ("docs/pump.md", "# Pump\n\nBy [the rules](../rules.md#pumps), at 6 m.\n"),
    ("docs/old.md", "# Old gauge\n\n# Datum"),
];

fn main() {
    let (mut index, mut contents) = (String::new(), String::new());
    for (name, text) in NOTES {
        index += &format!("{name}\t{}\t{}\n", contents.len(), text.len());
        contents += text;
    }
    let files = FileSet { index: index.as_bytes(), contents: contents.as_bytes() };
    let mut out = [0; LIMIT];
    let mut work = [0; work_size(NOTES.len(), 2, LIMIT)];
    for list in ["docs/gauge.md\ndocs/pump.md\n", "docs/gauge.md\ndocs/old.md\n"] {
        let members = Members { list: list.as_bytes(), url: b"https://river.example/notes" };
        match assemble(files, members, LIMIT, &mut out, &mut work).text() {
            Ok(text) => {
                std::io::stdout().write_all(text.unwrap_or_default()).expect("standard output");
            }
            Err(refusal) => {
                let (number, place, second) = (refusal.number(), refusal.place(), refusal.second());
                println!("refused {number}, {place}; {second}");
            }
        }
    }
}
