//! Rows of refusals at the last line of a long log. L and the buffers are small, so that
//! the clearing of work is not worth leaving out.

use std::hint::black_box;

use doc_gen::{assembly, fragment};
use jilgyemot_host::answer::Answer;
use jilgyemot_host::assembling::oracle::members;
use jilgyemot_host::assembling::timed::of_files;
use jilgyemot_host::filling::case::Case;
use jilgyemot_host::filling::timed::{plain, region};
use jilgyemot_host::random::Random;
use jilgyemot_host::walking::lent::Function;
use jilgyemot_host::walking::limits::Limits;
use jilgyemot_host::walking::set::Handed;

use crate::bench_walk::{Texts, text};
use crate::library_assembly::assemble;
use crate::library_fill::fill;
use crate::{KIB, MIB, RUNS, median, time};

/// The library's call, and the Rust's where it takes such a text, by its message.
struct Row {
    name: &'static str,
    refusal: [u64; 3],
    ours: Box<dyn FnMut() -> Answer>,
    rust: Option<Box<dyn FnMut() -> String>>,
}

const LOG: &[u8] = b"docs/log.md";

fn rows() -> [Row; 4] {
    let wide = log_with("", b"level \xE9");
    let marker = log_with("", b"x <!--[fragment:a.md]-->");
    let deep = log_with("", b"###### Datum");
    let host = format!("# Station\n{}", region("docs/log.md", false));
    let deep_case = Case::of(&[(LOG.to_vec(), deep.clone())], b"docs/host.md", host.as_bytes());
    let member = log_with("# Title\n# Station\n", b"###### Datum");
    [
        filled("5, byte 80 hex or above", [5, 0, last_line(&wide)], Case::of(&[], LOG, &wide)),
        filled("10, ill-spelled marker", [10, 0, last_line(&marker)], Case::of(&[], LOG, &marker)),
        filled("16, heading past level 6", [16, 1, last_line(&deep)], deep_case),
        assembled("16, in an assembly", [16, 1, last_line(&member)], member),
    ]
}

/// A log of some 1 MiB between other lines.
fn log_with(first: &str, last: &[u8]) -> Vec<u8> {
    let log = plain(MIB - KIB, &mut Random::new(1));
    [first.as_bytes(), &log, last].concat()
}

fn last_line(text: &[u8]) -> u64 {
    1 + text.iter().filter(|&&byte| byte == b'\n').count() as u64
}

fn filled(name: &'static str, refusal: [u64; 3], case: Case) -> Row {
    let rust = str::from_utf8(&case.text).is_ok().then(|| {
        let (name, host, texts) = (text(&case.name), text(&case.text), Texts::of(&case.set));
        let call = move || fragment::fill(&name, black_box(&host), &texts);
        Box::new(move || call().expect_err("a refusal")) as Box<dyn FnMut() -> String>
    });
    Row { name, refusal, ours: called(fill, case), rust }
}

fn assembled(name: &'static str, refusal: [u64; 3], member: Vec<u8>) -> Row {
    let case = of_files(&[(LOG.to_vec(), member)], 1);
    let (given, url) = (members(&case), text(&case.url));
    let call = move || assembly::assemble(black_box(&given), &url);
    let rust = Box::new(move || call().expect_err("a refusal"));
    Row { name, refusal, ours: called(assemble, case), rust: Some(rust) }
}

fn called(function: Function, case: impl Handed + 'static) -> Box<dyn FnMut() -> Answer> {
    let limits = Limits::of(KIB, 1, 2);
    let (mut out, mut work) = (vec![b'.'; limits.out], vec![b'.'; limits.work]);
    Box::new(move || function(black_box(case.parts()), &limits, &mut out, &mut work))
}

/// The medians of the Rust and of the library, by turns.
fn medians(row: &mut Row) -> (Option<f64>, f64) {
    let [number, file, line] = row.refusal;
    assert_eq!((row.ours)(), [2, number, file, line, 0, 0]);
    if let Some(rust) = &mut row.rust {
        let message = rust();
        assert!(message.contains(&format!("{}:{line}: ", text(LOG))), "{message}");
    }
    let (mut rust, mut ours) = (Vec::new(), Vec::new());
    for _ in 0..RUNS {
        rust.extend(row.rust.as_mut().map(|call| time(1, call)));
        ours.push(time(1, &mut row.ours));
    }
    (row.rust.is_some().then(|| median(rust)), median(ours))
}

pub fn print_table() {
    let name = "fault in a log's last line";
    println!("{name:36} {:>9} {:>9} {:>10}", "Rust ms", "ours ms", "ours/Rust");
    for mut row in rows() {
        let name = row.name;
        match medians(&mut row) {
            (Some(rust), ours) => println!("{name:36} {rust:9.4} {ours:9.4} {:10.3}", ours / rust),
            (None, ours) => println!("{name:36} {:>9} {ours:9.4}", ""),
        }
    }
}
