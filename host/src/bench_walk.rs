//! What the rows of a call with a walk share. The clearing of work is measured by
//! itself and left out of the library's time.

use std::hint::black_box;

use doc_gen::fragment::Files;
use jilgyemot_host::walking::expected::Expected;
use jilgyemot_host::walking::lent::Function;
use jilgyemot_host::walking::limits::{Limits, Needs};
use jilgyemot_host::walking::set::{FileSet, Handed};

use crate::{MIB, RUNS, median, time};

/// The medians of the Rust, of the library and of the clearing alone.
pub struct Medians {
    rust: f64,
    whole: f64,
    clearing: f64,
}

/// Times a call beside what the Rust does, with L and buffers just enough.
pub fn measure<C: Handed, T>(
    case: &C,
    expected: &Expected,
    function: Function,
    mut rust_call: impl FnMut() -> T,
) -> Medians {
    let needs = Needs::of(&expected.walk);
    let limits = Limits::of(needs.longest(), needs.taken(), expected.texts);
    let (mut out, mut work) = (vec![b'.'; limits.out], vec![b'.'; limits.work]);
    let answer = function(case.parts(), &limits, &mut out, &mut work);
    assert_eq!(Some(answer), expected.answer(&limits));
    assert!(answer[0] < 2, "a row is not refused: {answer:?}");
    assert!(out.starts_with(expected.written(&answer)), "the text differs from the Rust's");

    let given: usize = case.parts().iter().map(|part| part.len()).sum();
    let repeats = (MIB / given.max(answer[1] as usize)).max(1);
    let mut zeros = vec![b'.'; limits.work];
    let (mut rust, mut whole, mut clearing) = (Vec::new(), Vec::new(), Vec::new());
    for _ in 0..RUNS {
        rust.push(time(repeats, &mut rust_call));
        whole.push(time(repeats, || {
            function(black_box(case.parts()), &limits, &mut out, &mut work)
        }));
        clearing.push(time(repeats, || black_box(&mut zeros).fill(0)));
    }
    Medians { rust: median(rust), whole: median(whole), clearing: median(clearing) }
}

pub fn print_head(call: &str) {
    println!(
        "{call:36} {:>9} {:>9} {:>10} {:>11}",
        "Rust ms", "ours ms", "ours/Rust", "clearing ms"
    );
}

pub fn print_row(name: &str, medians: &Medians) {
    let Medians { rust, whole, clearing } = medians;
    let ours = whole - clearing;
    println!("{name:36} {rust:9.4} {ours:9.4} {:10.3} {clearing:11.4}", ours / rust);
}

/// More files than any row takes in.
pub const MOST_TAKEN: usize = 10_000;

/// Names and texts, as the Rust reads them.
pub struct Texts(Vec<(String, String)>);

impl Texts {
    pub fn of(set: &FileSet) -> Self {
        Texts(set.files().iter().map(|(name, bytes)| (text(name), text(bytes))).collect())
    }
}

impl Files for Texts {
    fn read(&self, path: &str) -> Result<String, String> {
        let found = self.0.iter().find(|(name, _)| name == path);
        found.map(|(_, text)| text.clone()).ok_or_else(|| "not in the index".to_string())
    }
}

/// As the Rust takes it.
pub fn text(bytes: &[u8]) -> String {
    String::from_utf8(bytes.to_vec()).expect("the rows are ASCII")
}
