//! Times the library's scan, fill, assembly and book beside the Rust's, by turns in one
//! run.

mod bench_assembly;
mod bench_book;
mod bench_fill;
mod bench_lines;
mod bench_walk;
mod library;
mod library_assembly;
mod library_book;
mod library_fill;

use std::hint::black_box;
use std::time::Instant;

use doc_gen::marker;
use jilgyemot_host::notes::{long_line, marker_in_each_line, notes};
use jilgyemot_host::oracle::Expected;
use jilgyemot_host::random::Random;

const KIB: usize = 1024;
const MIB: usize = 1024 * KIB;

/// An odd number, so that the median is one of the runs.
const RUNS: usize = 41;

fn rows() -> Vec<(&'static str, Vec<u8>)> {
    let mut random = Random::new(1);
    vec![
        ("notes, 64 KiB", notes(64 * KIB, &mut random)),
        ("notes, 1 MiB", notes(MIB, &mut random)),
        ("a marker in each line, 1 MiB", marker_in_each_line(MIB)),
        ("one line, a span at its end, 1 MiB", long_line(MIB, "<!--[k]-->v<!--[/]-->")),
        ("one line, no marker, 1 MiB", long_line(MIB, "")),
        ("notes, 1 KiB", notes(KIB, &mut random)),
    ]
}

/// The time of one call in milliseconds, over `repeats` of them. What a call
/// gives is dropped after the clock is read.
fn time<T>(repeats: usize, mut call: impl FnMut() -> T) -> f64 {
    let mut kept = Vec::with_capacity(repeats);
    let start = Instant::now();
    for _ in 0..repeats {
        kept.push(call());
    }
    let time = start.elapsed();
    black_box(kept);
    time.as_secs_f64() * 1e3 / repeats as f64
}

fn median(mut times: Vec<f64>) -> f64 {
    times.sort_by(f64::total_cmp);
    times[times.len() / 2]
}

/// The medians of the Rust and of the library on one text.
fn measure(text: &[u8]) -> (f64, f64) {
    let expected = Expected::of(text);
    let size = expected.full_size();
    let mut out = vec![b'.'; size];
    assert_eq!(library::scan(text, &mut out), expected.answer(size));
    assert!(out == expected.written(size), "the listing differs from the Rust's");

    let markdown = str::from_utf8(text).expect("the rows are ASCII");
    let repeats = MIB / text.len();
    let (mut rust, mut ours) = (Vec::new(), Vec::new());
    for _ in 0..RUNS {
        rust.push(time(repeats, || marker::scan(black_box(markdown))));
        ours.push(time(repeats, || library::scan(black_box(text), black_box(&mut out))));
    }
    (median(rust), median(ours))
}

fn main() {
    println!("{:36} {:>9} {:>9} {:>10}", "scan", "Rust ms", "ours ms", "ours/Rust");
    for (name, text) in rows() {
        let (rust, ours) = measure(&text);
        println!("{name:36} {rust:9.4} {ours:9.4} {:10.3}", ours / rust);
    }
    println!();
    bench_fill::print_table();
    println!();
    bench_assembly::print_table();
    println!();
    bench_book::print_table();
    println!();
    bench_book::print_diamonds();
    println!();
    bench_lines::print_table();
}
