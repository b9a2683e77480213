//! Fills a host with one file from Rust and prints it.

use std::io::Write;

use jilgyemot::{Answer, FileSet, Host, Limits, fill, work_size};

/// No text made on the way has more bytes.
const LIMIT: usize = 256;

const STEPS: &str = "# Steps\n\nClose the sluice, then [read](../host.md#g).\n";
const HOST: &str = "# Gauge\n\n<!--[fragment:docs/steps.md]-->\n<!--[/]-->\n";

fn main() {
    let index = format!("docs/steps.md\t0\t{}\n", STEPS.len());
    let files = FileSet { index: index.as_bytes(), contents: STEPS.as_bytes() };
    let host = Host { name: b"host.md", text: HOST.as_bytes() };
    let limits = Limits { text: LIMIT, files: 1 };
    let mut out = [0; LIMIT];
    let mut work = [0; work_size(1, 0, LIMIT)];
    match fill(files, host, limits, &mut out, &mut work) {
        Answer::Accepted { text, .. } => {
            std::io::stdout().write_all(text).expect("standard output");
        }
        Answer::NoRegion => print!("{HOST}"),
        Answer::Refused(refusal) => println!("refused {}, {}", refusal.number(), refusal.place()),
    }
}
