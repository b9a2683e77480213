//! Compares the library's assembly with the Rust's and with document 01's limits on
//! generated file sets: the six numbers, and every byte of both buffers and around
//! them.

mod library_assembly;

use jilgyemot_host::assembling::checking::compare_examples;
use jilgyemot_host::assembling::examples::examples;
use jilgyemot_host::assembling::oracle::{REFUSALS, expected};
use jilgyemot_host::assembling::sets::Sets;
use jilgyemot_host::assembling::shorter::shorter;
use jilgyemot_host::assembling::underscored::Underscores;
use jilgyemot_host::comparison::{Options, report};
use jilgyemot_host::walking::comparing::{Call, Comparison};
use jilgyemot_host::walking::null::{OrNull, compare_null};
use library_assembly::{assemble, assemble_or_null};

/// From so many cases on, every answer must have been seen.
const MANY: u64 = 200_000;

/// The refusals that stand in a file.
const IN_FILES: [u64; 5] = [5, 16, 17, 18, 19];

/// Index, contents, list and buffers that are there or are null.
fn compare_nulls() -> Result<u64, String> {
    let call: OrNull = |given, out, work| assemble_or_null(given, 1, out, work);
    compare_null(call, 3, ([0, 1, 0, 0, 0, 0], [b'\n', 0xA5]))
}

fn run(options: &Options) -> Result<u64, String> {
    let mut sets = Sets::new(options.seed);
    let mut underscores = Underscores::new(options.seed);
    let mut comparison = Comparison::of(Call { function: assemble, expected, shorter });
    let first = compare_nulls()? + compare_examples(&mut comparison, examples())?;
    let cases = comparison.run(options, first, || underscores.put_into(sets.next()))?;
    println!("all members of up to {} whole lines", sets.members.complete());
    let answers = &comparison.answers;
    println!("{answers}");
    println!("file sets {}", answers.sources);
    if cases >= MANY && !answers.has_seen(&REFUSALS, &IN_FILES) {
        return Err("an answer was not seen".to_string());
    }
    if cases >= MANY && !answers.sources.has_both() {
        return Err("no file set was held to the Rust, or none to the model".to_string());
    }
    Ok(cases)
}

fn main() {
    report("compare_assembly", run);
}
