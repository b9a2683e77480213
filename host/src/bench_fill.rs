//! The fill's rows.

use std::hint::black_box;

use doc_gen::fragment;
use jilgyemot_host::filling::case::Case;
use jilgyemot_host::filling::oracle::expected_within;
use jilgyemot_host::filling::timed;

use crate::bench_walk::{MOST_TAKEN, Medians, Texts, measure, print_head, print_row, text};
use crate::library_fill::fill;

fn medians(case: &Case) -> Medians {
    let expected = expected_within(case, MOST_TAKEN).expect("the model agrees with the Rust");
    let texts = Texts::of(&case.set);
    let (name, host) = (text(&case.name), text(&case.text));
    measure(case, &expected, fill, || fragment::fill(&name, black_box(&host), &texts))
}

pub fn print_table() {
    print_head("fill");
    for (name, case) in timed::rows() {
        print_row(name, &medians(&case));
    }
}
