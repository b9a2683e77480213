//! The stored cases of assemblies.

use jilgyemot_host::assembling::examples::examples;
use jilgyemot_host::assembling::oracle::{REFUSALS, expected};
use jilgyemot_host::assembling::sets::Sets;
use jilgyemot_host::walking::limits::Limits;

use crate::Cases;
use crate::record_list::ListCall;
use crate::record_named;
use crate::record_walk::{Sample, add_generated};

pub fn add_assemblies(cases: &mut Cases) {
    let call = ListCall { expected, refusals: &REFUSALS };
    call.add_checks(cases);
    call.add_examples(cases, examples());
    call.add_ample(cases, record_named::assemblies());
    let mut sets = Sets::new(1);
    let sample = Sample { count: 70, most: 700 };
    let limited = |limits| Limits { allowance: 0, ..limits };
    add_generated(cases, sample, || sets.next(), |case| call.expected(case), limited);
    call.assert_all_refused(cases);
}
