//! The book's rows, and its time by B.

use doc_gen::assembly::{self, Member};
use doc_gen::fragment;
use jilgyemot_host::assembling::case::Case;
use jilgyemot_host::assembling::oracle::members;
use jilgyemot_host::booking::oracle::expected_within;
use jilgyemot_host::booking::timed::{self, diamond};
use jilgyemot_host::walking::limits::Limits;
use jilgyemot_host::walking::set::Handed;

use crate::bench_walk::{MOST_TAKEN, Medians, Texts, measure, print_head, print_row, text};
use crate::library_book::book;
use crate::{median, time};

fn medians(case: &Case) -> Medians {
    let expected = expected_within(case, MOST_TAKEN).expect("the model agrees with the Rust");
    let (members, texts, url) = (members(case), Texts::of(&case.set), text(&case.url));
    measure(case, &expected, book, || {
        let filled: Vec<Member> = members.iter().map(|member| filled(member, &texts)).collect();
        assembly::assemble(&filled, &url)
    })
}

/// The member with its regions filled; one with no region is kept.
fn filled(member: &Member, texts: &Texts) -> Member {
    let filled = fragment::fill(&member.path, &member.text, texts).expect("a row is not refused");
    Member { path: member.path.clone(), text: filled.unwrap_or_else(|| member.text.clone()) }
}

pub fn print_table() {
    print_head("book");
    for (name, case) in timed::rows() {
        print_row(name, &medians(&case));
    }
}

/// More levels than any B here reaches the end of.
const LEVELS: usize = 40;

/// The text limit, which no text reaches.
const LIMIT: usize = 4_096;

const OLD_LINE: &str = "the water level at the weir, as it was read on the day before\n";

/// The time of a call that takes in B files and is refused then, by B and by the files'
/// size.
pub fn print_diamonds() {
    println!("{:36} {:>9} {:>9} {:>12}", "a diamond of files", "B", "ours ms", "us for one");
    for (name, lines, most) in [("64 bytes each", 0, 1_000_000), ("16 KiB each", 131, 10_000)] {
        let case = diamond(LEVELS, &OLD_LINE.repeat(lines), "");
        for allowance in [most / 100, most / 10, most] {
            let time = refused_time(&case, allowance);
            println!("{name:36} {allowance:9} {time:9.2} {:12.3}", time * 1e3 / allowance as f64);
        }
    }
}

fn refused_time(case: &Case, allowance: u32) -> f64 {
    let limits = Limits::of(LIMIT, allowance, LEVELS + 2);
    let (mut out, mut work) = (vec![b'.'; limits.out], vec![b'.'; limits.work]);
    let mut call = || book(case.parts(), &limits, &mut out, &mut work);
    assert_eq!(call()[..2], [2, 15], "B ends the call");
    median((0..5).map(|_| time(1, &mut call)).collect())
}
