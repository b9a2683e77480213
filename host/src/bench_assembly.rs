//! The assembly's rows.

use std::hint::black_box;

use doc_gen::assembly;
use jilgyemot_host::assembling::case::Case;
use jilgyemot_host::assembling::oracle::{expected, members};
use jilgyemot_host::assembling::timed;

use crate::bench_walk::{Medians, measure, print_head, print_row, text};
use crate::library_assembly::assemble;

fn medians(case: &Case) -> Medians {
    let expected = expected(case).expect("the model agrees with the Rust");
    let (members, url) = (members(case), text(&case.url));
    measure(case, &expected, assemble, || assembly::assemble(black_box(&members), &url))
}

pub fn print_table() {
    print_head("assembly");
    for (name, case) in timed::rows() {
        print_row(name, &medians(&case));
    }
}
