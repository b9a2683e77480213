//! Runs the program `marklist` and compares what it prints with the Rust's scan.

use std::io::Write;
use std::os::fd::OwnedFd;
use std::os::unix::net::UnixDatagram;
use std::process::{Command, ExitCode, Stdio};

use jilgyemot_host::generate::Texts;
use jilgyemot_host::notes::{long_line, marker_in_each_line, notes};
use jilgyemot_host::oracle::Expected;
use jilgyemot_host::random::Random;

/// The bytes of its input that the program scans.
const SCANNED: usize = 16_384;

/// The bytes of the program's output. No listing of `SCANNED` bytes is longer,
/// so refusal 17 is no answer of the program: a problem's row has at most 17
/// bytes and a marker of 5 to itself (but for the one row of an unclosed fence),
/// a span's 35 and 20, a region's 33 and 29.
const OUTPUT: usize = 65_536;

/// What the program has to print.
fn expected(input: &[u8]) -> Vec<u8> {
    let expected = Expected::of(&input[..input.len().min(SCANNED)]);
    match expected.answer(OUTPUT) {
        [0, ..] => expected.written(OUTPUT).to_vec(),
        [_, number, _, line, ..] => format!("refused\t{number}\t{line}\n").into_bytes(),
    }
}

/// What the program prints where its input comes through a pipe.
fn printed(program: &str, input: &[u8]) -> Vec<u8> {
    let mut command = Command::new(program);
    let command = command.stdin(Stdio::piped()).stdout(Stdio::piped());
    let mut child = command.spawn().expect("the program starts");
    // Fails where the program has ended before it read all: it reads what it scans.
    let _ = child.stdin.take().expect("a pipe").write_all(input);
    let output = child.wait_with_output().expect("the program ends");
    assert!(output.status.success(), "{}", output.status);
    output.stdout
}

/// The same where a read gives a piece of the input and no more. A datagram is
/// read by itself, and an empty one as the end.
fn printed_from_pieces(program: &str, input: &[u8], size: usize) -> Vec<u8> {
    let (sender, receiver) = UnixDatagram::pair().expect("two sockets");
    let mut command = Command::new(program);
    command.stdin(OwnedFd::from(receiver)).stdout(Stdio::piped());
    let child = command.spawn().expect("the program starts");
    // Closes the parent's receiver, so that a send fails where the program has ended.
    drop(command);
    for piece in input.chunks(size).chain([&[][..]]) {
        if sender.send(piece).is_err() {
            break;
        }
    }
    let output = child.wait_with_output().expect("the program ends");
    assert!(output.status.success(), "{}", output.status);
    output.stdout
}

/// The sizes around the end of what is scanned, and two far past it.
const SIZES: [usize; 6] = [SCANNED - 1, SCANNED, SCANNED + 1, SCANNED + 2, 20_000, 100_000];

fn inputs() -> Vec<Vec<u8>> {
    let mut inputs = vec![
        Vec::new(),
        b"\n".to_vec(),
        b"a\n<!--[/]-->\nb\xc3\xa9\n\xff\n".to_vec(),
        b"\x80".to_vec(),
        // The longest listing for its length: a problem in each line.
        b"<!--[\n".repeat(SCANNED / 6),
    ];
    inputs.extend(SIZES.map(marker_in_each_line));
    inputs.extend(SIZES.map(|size| notes(size, &mut Random::new(1))));
    inputs.extend(across_the_end());
    inputs.extend(wide_near_the_end());
    inputs
}

/// A span that ends before the end of what is scanned, at it, and past it, so
/// that it is cut at each of its places.
fn across_the_end() -> impl Iterator<Item = Vec<u8>> {
    let span = "<!--[k]-->v<!--[/]-->";
    let ends = SCANNED - 1..=SCANNED + span.len();
    ends.flat_map(move |end| {
        let line = long_line(end, span);
        [line.clone(), [&line[..], b"\n<!--[/]-->\n"].concat()]
    })
}

/// A byte 80 hex or above as the last that is scanned, before it, and past it.
fn wide_near_the_end() -> impl Iterator<Item = Vec<u8>> {
    let places = SCANNED - 2..=SCANNED + 1;
    places.flat_map(|place| {
        let mut text = notes(SCANNED + 100, &mut Random::new(2));
        text[place] = 0x80;
        [text[..=place].to_vec(), text]
    })
}

/// How many generated texts follow the inputs above.
const GENERATED: usize = 500;

/// The number of runs, or what is wrong.
fn run(program: &str) -> Result<usize, String> {
    let mut texts = Texts::new(1);
    let generated = std::iter::repeat_with(|| texts.next()).take(GENERATED);
    let mut runs = 0;
    for input in inputs().into_iter().chain(generated) {
        let expected = expected(&input);
        same("a pipe", &input, &expected, &printed(program, &input))?;
        for size in [7, 4_096] {
            let printed = printed_from_pieces(program, &input, size);
            same(&format!("pieces of {size}"), &input, &expected, &printed)?;
        }
        runs += 3;
    }
    Ok(runs)
}

fn same(way: &str, input: &[u8], expected: &[u8], printed: &[u8]) -> Result<(), String> {
    if expected == printed {
        return Ok(());
    }
    Err(format!(
        "{} bytes through {way}\ninput    {}\nexpected {}\nprinted  {}",
        input.len(),
        input.escape_ascii(),
        expected.escape_ascii(),
        printed.escape_ascii()
    ))
}

fn main() -> ExitCode {
    let Some(program) = std::env::args().nth(1) else {
        eprintln!("usage: compare_marklist PROGRAM");
        return ExitCode::from(2);
    };
    match run(&program) {
        Ok(runs) => println!("compared {runs} runs of marklist, no mismatch"),
        Err(wrong) => {
            println!("mismatch: {wrong}");
            return ExitCode::FAILURE;
        }
    }
    ExitCode::SUCCESS
}
