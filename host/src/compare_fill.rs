//! Compares the library's fill with the Rust's and with document 01's limits on
//! generated file sets: the six numbers, and every byte of both buffers and around
//! them.

mod library_fill;

use jilgyemot_host::comparison::{Options, report};
use jilgyemot_host::filling::case::Case;
use jilgyemot_host::filling::examples::{CHECKS, examples, of_file};
use jilgyemot_host::filling::oracle::expected;
use jilgyemot_host::filling::sets::Sets;
use jilgyemot_host::filling::shorter::shorter;
use jilgyemot_host::walking::comparing::{Answers, Call, Comparison};
use jilgyemot_host::walking::limits::Limits;
use jilgyemot_host::walking::null::{OrNull, compare_null};
use library_fill::{fill, fill_or_null};

/// From so many cases on, every answer must have been seen.
const MANY: u64 = 1_000_000;

const LONGEST_CHAIN: usize = 64;

/// The refusals of a fill, and those that a file taken in can have in the walk.
const REFUSALS: [u64; 16] = [1, 2, 3, 4, 5, 6, 8, 9, 10, 11, 12, 13, 14, 15, 16, 17];
const IN_FILES: [u64; 9] = [9, 10, 11, 12, 13, 14, 15, 16, 17];

/// Whether every answer was seen, each fault of a text in a file too, and the
/// longest chain.
fn is_complete(answers: &Answers) -> bool {
    answers.has_seen(&REFUSALS, &IN_FILES)
        && answers.no_region > 0
        && answers.deepest >= LONGEST_CHAIN
}

/// Document 01's examples, K7 to K9 held to what it says of them, all at every
/// limit that tells.
fn compare_examples(comparison: &mut Comparison<Case>) -> Result<u64, String> {
    let mut calls = 0;
    for (host, file, answer, text) in CHECKS {
        let case = of_file(host, file);
        comparison.check(&case, &Limits::of(1_000, 9, 1), (answer, text))?;
        calls += 1 + comparison.compare_at_edges(&case)?;
    }
    let checks = CHECKS.iter().map(|(host, file, ..)| of_file(host, file));
    for case in checks.chain(examples()) {
        calls += comparison.compare_at_all(&case)?;
    }
    Ok(calls)
}

/// Index, contents, host's text and buffers that are there or are null.
fn compare_nulls() -> Result<u64, String> {
    let call: OrNull = |given, out, work| fill_or_null(given, 1, 0, out, work);
    compare_null(call, 2, ([1, 0, 0, 0, 0, 0], [0xA5; 2]))
}

fn run(options: &Options) -> Result<u64, String> {
    let mut sets = Sets::new(options.seed);
    let mut comparison = Comparison::of(Call { function: fill, expected, shorter });
    let first = compare_nulls()? + compare_examples(&mut comparison)?;
    let cases = comparison.run(options, first, || sets.next())?;
    let answers = &comparison.answers;
    println!("all hosts of up to {} whole lines", sets.hosts.complete());
    println!("all files of up to {} whole lines", sets.files.complete());
    println!("{answers}");
    println!("no region: {}", answers.no_region);
    println!("up to {} files taken in, and chains of {}", answers.most_files, answers.deepest);
    if cases >= MANY && !is_complete(answers) {
        return Err("an answer was not seen".to_string());
    }
    Ok(cases)
}

fn main() {
    report("compare_fill", run);
}
