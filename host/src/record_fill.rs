//! The stored cases of fills.

use jilgyemot_host::filling::case::Case;
use jilgyemot_host::filling::examples::{CHECKS, examples, of_file};
use jilgyemot_host::filling::oracle;
use jilgyemot_host::filling::sets::Sets;
use jilgyemot_host::walking::expected::Expected;
use jilgyemot_host::walking::limits::{Limits, Needs};

use crate::Cases;
use crate::record_named;
use crate::record_walk::{self, Sample};

fn expected(case: &Case) -> Expected {
    oracle::expected(case).expect("the model agrees with the Rust")
}

fn add(cases: &mut Cases, case: &Case, limits: &Limits) {
    record_walk::add(cases, case, limits, &expected(case));
}

fn add_checks(cases: &mut Cases) {
    for (host, file, answer, text) in CHECKS {
        let (case, limits) = (of_file(host, file), Limits::of(1_000, 9, 1));
        let expected = expected(&case);
        assert_eq!(expected.answer(&limits), Some(answer), "{host:?}, {file:?}");
        assert!(expected.written(&answer) == text.as_bytes(), "{host:?}, {file:?}");
        add(cases, &case, &limits);
    }
}

/// Each with room to spare, with none to spare, and one file or one byte short.
fn add_examples(cases: &mut Cases) {
    for case in examples() {
        let needs = Needs::of(&expected(&case).walk);
        let (longest, taken) = (needs.longest(), needs.taken());
        add(cases, &case, &Limits::of(1_000, 9, 1));
        if taken > 0 {
            add(cases, &case, &Limits::of(longest, taken, 1));
            add(cases, &case, &Limits::of(longest, taken - 1, 1));
            add(cases, &case, &Limits::of(longest - 1, taken, 1));
        }
    }
    add(cases, &of_file("# T\n<!--[fragment:b]-->\n<!--[/]-->\n", ""), &Limits::of(1, 9, 1));
    add(cases, &of_file("", ""), &Limits { limit: 0, ..Limits::of(1, 0, 1) });
}

fn add_generated(cases: &mut Cases) {
    let mut sets = Sets::new(1);
    let sample = Sample { count: 160, most: 600 };
    record_walk::add_generated(cases, sample, || sets.next(), expected, |limits| limits);
}

fn add_named(cases: &mut Cases) {
    record_named::fills().for_each(|case| add(cases, &case, &Limits::of(1_000, 9, 1)));
}

pub fn add_fills(cases: &mut Cases) {
    add_checks(cases);
    add_examples(cases);
    add_named(cases);
    add_generated(cases);
}
