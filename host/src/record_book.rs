//! The stored cases of books.

use jilgyemot_host::assembling::examples::before_walk;
use jilgyemot_host::booking::examples::{of_fills, of_lists};
use jilgyemot_host::booking::oracle::{REFUSALS, expected};
use jilgyemot_host::booking::sets::Sets;

use crate::Cases;
use crate::record_list::ListCall;
use crate::record_walk::{Sample, add_generated};

pub fn add_books(cases: &mut Cases) {
    let call = ListCall { expected, refusals: &REFUSALS };
    call.add_checks(cases);
    call.add_examples(cases, of_lists().chain(of_fills()).chain(before_walk()));
    let mut sets = Sets::new(1);
    let sample = Sample { count: 160, most: 700 };
    add_generated(cases, sample, || sets.next(), |case| call.expected(case), |limits| limits);
    call.assert_all_refused(cases);
}
