//! The sentences of the refusals beside those of the program `stationbook`, which
//! `crates/sentences/stdout` lists: a line for each number, a tab behind it.

use jilgyemot::{Answer, Refusal};

const LISTED: &str = include_str!("../../crates/sentences/stdout");

fn refusal(number: u64) -> Refusal {
    match Answer::from_numbers([2, number, 0, 0, 0, 0], b"") {
        Answer::Refused(refusal) => refusal,
        answer => panic!("{answer:?}"),
    }
}

#[test]
fn the_sentences_are_those_that_stationbook_prints() {
    let ours = (1..=19).map(|number| format!("{number}\t{}", refusal(number).sentence()));
    let listed: Vec<&str> = LISTED.lines().collect();
    assert_eq!(ours.collect::<Vec<_>>(), listed);
}

#[test]
fn no_other_number_has_one() {
    let none = "the number is none of 1 to 19";
    for number in [0, 20, u64::MAX] {
        assert_eq!(refusal(number).sentence(), none);
        assert_eq!(refusal(number).to_string(), format!("{none} (refusal {number})"));
    }
}
