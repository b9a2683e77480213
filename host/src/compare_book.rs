//! Compares the library's book with what the Rust's fill and assembly give one after the
//! other, with document 01's limits and with its chains on generated file sets: the six
//! numbers, and every byte of both buffers and around them.

mod library_book;

use jilgyemot_host::assembling::checking::compare_examples;
use jilgyemot_host::assembling::shorter::shorter;
use jilgyemot_host::assembling::underscored::Underscores;
use jilgyemot_host::booking::examples::examples;
use jilgyemot_host::booking::oracle::{REFUSALS, expected};
use jilgyemot_host::booking::sets::Sets;
use jilgyemot_host::comparison::{Options, report};
use jilgyemot_host::walking::comparing::{Answers, Call, Comparison};
use jilgyemot_host::walking::null::{OrNull, compare_null};
use library_book::{book, book_or_null};

/// From so many cases on, every answer must have been seen.
const MANY: u64 = 1_000_000;

/// Behind a member.
const LONGEST_CHAIN: usize = 63;

/// The refusals that stand in a file.
const IN_FILES: [u64; 12] = [5, 9, 10, 11, 12, 13, 14, 15, 16, 17, 18, 19];

/// Whether every answer was seen, and the longest chain.
fn is_complete(answers: &Answers) -> bool {
    answers.has_seen(&REFUSALS, &IN_FILES) && answers.deepest >= LONGEST_CHAIN
}

/// Index, contents, list and buffers that are there or are null.
fn compare_nulls() -> Result<u64, String> {
    let call: OrNull = |given, out, work| book_or_null(given, 1, 0, out, work);
    compare_null(call, 3, ([0, 1, 0, 0, 0, 0], [b'\n', 0xA5]))
}

fn run(options: &Options) -> Result<u64, String> {
    let mut sets = Sets::new(options.seed);
    let mut underscores = Underscores::new(options.seed);
    let mut comparison = Comparison::of(Call { function: book, expected, shorter });
    let first = compare_nulls()? + compare_examples(&mut comparison, examples())?;
    let cases = comparison.run(options, first, || underscores.put_into(sets.next()))?;
    let answers = &comparison.answers;
    println!("all members of up to {} whole lines", sets.members.complete());
    println!("{answers}");
    println!("up to {} files taken in, and chains of {}", answers.most_files, answers.deepest);
    println!("file sets {}", answers.sources);
    if cases >= MANY && !is_complete(answers) {
        return Err("an answer was not seen".to_string());
    }
    if cases >= MANY && !answers.sources.has_both() {
        return Err("no file set was held to the Rust, or none to the model".to_string());
    }
    Ok(cases)
}

fn main() {
    report("compare_book", run);
}
