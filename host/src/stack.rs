//! Measures how much stack each call of the library takes, on a painted stack.

#[allow(dead_code)]
mod notes;
#[allow(dead_code)]
mod random;
mod stack_assembly;
mod stack_book;
mod stack_fill;
mod stack_set;

use std::arch::naked_asm;
use std::hint::black_box;

use jilgyemot::c::{jilgyemot_assemble, jilgyemot_book, jilgyemot_fill, jilgyemot_scan};
use notes::{long_line, marker_in_each_line, notes};
use random::Random;
use stack_assembly::assemblies;
use stack_book::books;
use stack_fill::fills;

/// Where a C function lies; `painted_call` passes the arguments.
type Address = *const ();

/// A call of the library, the bytes of stack that it may take at most, and what
/// it is measured on.
struct Call {
    name: &'static str,
    address: Address,
    bound: usize,
    inputs: fn() -> Vec<Input>,
}

/// A row for each call of the library.
const CALLS: [Call; 4] = [
    Call { name: "jilgyemot_scan", address: jilgyemot_scan as _, bound: 20_480, inputs: scans },
    Call { name: "jilgyemot_fill", address: jilgyemot_fill as _, bound: 131_072, inputs: fills },
    Call {
        name: "jilgyemot_assemble",
        address: jilgyemot_assemble as _,
        bound: 24_576,
        inputs: assemblies,
    },
    Call { name: "jilgyemot_book", address: jilgyemot_book as _, bound: 131_072, inputs: books },
];

/// What a call is given before its answer, and how it has to answer.
struct Input {
    name: &'static str,
    given: Vec<Given>,
    outcome: Outcome,
}

enum Given {
    /// A pointer and a length.
    Bytes(Vec<u8>),
    Number(u64),
}

/// The first two numbers of an answer.
#[derive(Clone, Copy, PartialEq, Debug)]
enum Outcome {
    Accepted,
    NoRegion,
    Refused(u64),
}

impl Outcome {
    fn of(answer: &[u64; 6]) -> Self {
        match answer[0] {
            0 => Outcome::Accepted,
            1 => Outcome::NoRegion,
            _ => Outcome::Refused(answer[1]),
        }
    }
}

const KIB: usize = 1024;
const MIB: usize = 1024 * KIB;

/// A listing is at most six times as long as its text.
const AMPLE: usize = 6 * MIB;

fn scans() -> Vec<Input> {
    use Outcome::{Accepted, Refused};
    let mut random = Random::new(1);
    let mut wide = notes(64 * KIB, &mut random);
    wide.push(0x80);
    let (short, long) = (notes(64 * KIB, &mut random), notes(MIB, &mut random));
    let marked = marker_in_each_line(MIB);
    let line = long_line(MIB, "<!--[k]-->v<!--[/]-->");
    vec![
        scan("empty", Vec::new(), AMPLE, Accepted),
        scan("empty, no output", Vec::new(), 0, Accepted),
        scan("short", b"<!--[k]-->v<!--[/]-->".to_vec(), AMPLE, Accepted),
        scan("notes, 64 KiB", short.clone(), AMPLE, Accepted),
        scan("notes, 1 MiB", long, AMPLE, Accepted),
        scan("a marker in each line, 1 MiB", marked.clone(), AMPLE, Accepted),
        scan("one line, a span at its end, 1 MiB", line, AMPLE, Accepted),
        scan("regions and problems", regions_and_problems(1), AMPLE, Accepted),
        scan("regions and problems, a thousand times", regions_and_problems(1000), AMPLE, Accepted),
        scan("a byte 80 hex behind 64 KiB", wide, AMPLE, Refused(5)),
        scan("notes, 64 KiB, no output", short, 0, Refused(17)),
        scan("a marker in each line, output of 64 KiB", marked, 64 * KIB, Refused(17)),
    ]
}

fn scan(name: &'static str, text: Vec<u8>, out: usize, outcome: Outcome) -> Input {
    Input { name, given: vec![Given::Bytes(text), Given::Bytes(vec![0; out])], outcome }
}

/// Regions, and every problem from 1 to 10.
fn regions_and_problems(times: usize) -> Vec<u8> {
    let repeated = "<!--[fragment:a.md]-->\nold <!--[k]-->v<!--[/]-->\n<!--[/]-->\n\
        <!--[fragment:b.md:peer]-->\n<!--[fragment:c.md]-->\n<!--[/]-->\n\
        ```\n<!--[k]-->\n```\na <!--[fragment:a.md]-->\n<!--[/]-->\n<!--[\n<!--[k]-->\n\
        <!--[k]--><!--[l]-->v<!--[/]-->\n<!--[]-->v<!--[/]-->\n";
    let unclosed = "<!--[fragment:d.md]-->\n~~~\n";
    (repeated.repeat(times) + unclosed).into_bytes()
}

/// Painted bytes below a call: more than any bound.
const PAINTED: usize = MIB;

/// Room for the arguments of every call, all of which are integers or pointers.
const WORDS: usize = 16;

/// Paints the stack from here down, calls with the words as arguments, and gives
/// the distance from the call's stack pointer to the deepest byte that is paint
/// no more. The return address is within it, arguments on the stack are not.
///
/// # Safety
///
/// The address is a C function's, the words are its arguments, and the thread has `PAINTED` bytes
/// of stack and some more.
#[unsafe(naked)]
unsafe extern "sysv64" fn painted_call(
    address: Address,
    words: *const [u64; WORDS],
    paint: u64,
) -> usize {
    naked_asm!(
        "push rbp; mov rbp, rsp",
        // r13 twice, so that rsp is a multiple of 16 at the call.
        "push rbx; push r12; push r13; push r13",
        "mov r12, rdi; mov rbx, rsi; mov r13, rdx",
        // The arguments past the sixth, the last one first.
        "mov ecx, {words}",
        "2:",
        "push qword ptr [rbx + 8 * rcx - 8]",
        "dec ecx",
        "cmp ecx, 6",
        "ja 2b",
        // The paint.
        "lea rdi, [rsp - {painted}]",
        "mov ecx, {painted}",
        "mov eax, r13d",
        "rep stosb",
        "mov rdi, [rbx]; mov rsi, [rbx + 8]; mov rdx, [rbx + 16]",
        "mov rcx, [rbx + 24]; mov r8, [rbx + 32]; mov r9, [rbx + 40]",
        "call r12",
        // Stops behind the first byte that is not paint, with rcx bytes to go.
        "lea rdi, [rsp - {painted}]",
        "mov ecx, {painted}",
        "mov eax, r13d",
        "repe scasb",
        "lea rax, [rcx + 1]",
        "lea rsp, [rbp - 32]",
        "pop r13; pop r13; pop r12; pop rbx; pop rbp",
        "ret",
        words = const WORDS,
        painted = const PAINTED,
    )
}

/// The depth of a call on an input, and its answer.
fn measured(address: Address, given: &mut [Given]) -> (usize, [u64; 6]) {
    let mut answer = [u64::MAX; 6];
    let mut words: Vec<u64> = Vec::new();
    for given in given {
        match given {
            Given::Bytes(bytes) => words.extend([bytes.as_mut_ptr() as u64, bytes.len() as u64]),
            Given::Number(number) => words.push(*number),
        }
    }
    words.push(answer.as_mut_ptr() as u64);
    words.resize(WORDS, 0);
    let words: [u64; WORDS] = words.try_into().expect("a call has at most 16 arguments");
    // A call may write a byte that looks like one paint, not like both.
    // SAFETY: every address here is that of a function with these arguments, and the
    // pointers are valid for their lengths and do not overlap.
    let depths = [0xA5, 0x5A].map(|paint| unsafe { painted_call(address, &words, paint) });
    (depths[0].max(depths[1]), black_box(answer))
}

/// Measures a call on all its inputs; false where one passes the bound.
fn measure(call: &Call) -> bool {
    let mut deepest = 0;
    for mut input in (call.inputs)() {
        let (depth, answer) = measured(call.address, &mut input.given);
        assert_eq!(Outcome::of(&answer), input.outcome, "{}, {}", call.name, input.name);
        println!("{:18} {:40} {depth:>9}", call.name, input.name);
        deepest = deepest.max(depth);
    }
    let Call { name, bound, .. } = call;
    println!("{name:18} {:40} {deepest:>9}", format!("deepest; bound {bound}"));
    if deepest > *bound {
        println!("{name} takes {deepest} bytes of stack, which is more than its bound {bound}");
    }
    deepest <= *bound
}

const ARRAY: usize = 40_000;

extern "C" fn with_array() {
    let mut array = [1u8; ARRAY];
    black_box(&mut array);
}

extern "C" fn with_nothing() {}

/// Writes an answer that tells where each of 14 arguments went.
#[rustfmt::skip]
unsafe extern "C" fn with_arguments(
    a: u64, b: u64, c: u64, d: u64, e: u64, f: u64, g: u64,
    h: u64, i: u64, j: u64, k: u64, l: u64, m: u64, n: u64, answer: *mut [u64; 6],
) {
    let numbers = [a, b, c, d, e, f, g, h, i, j, k, l, m, n];
    let joined = numbers.iter().fold(0, |joined, number| 16 * joined + number);
    // SAFETY: the caller lends room for an answer.
    unsafe { *answer = [2, joined, 0, 0, 0, 0] };
}

/// The measure itself, on functions whose depth and answer are known.
fn check_measure() {
    let nothing = measured(with_nothing as Address, &mut []).0;
    assert_eq!(nothing, 8, "a return address and no more");
    let array = measured(with_array as Address, &mut []).0;
    assert!((ARRAY + 8..ARRAY + 256).contains(&array), "{array} for an array of {ARRAY}");
    let mut given: Vec<Given> = (1..=14).map(Given::Number).collect();
    let (_, answer) = measured(with_arguments as Address, &mut given);
    assert_eq!(Outcome::of(&answer), Outcome::Refused(0x12_3456_789A_BCDE), "the arguments");
}

/// Every call is measured, also behind one that passes its bound.
fn run() -> bool {
    check_measure();
    println!("{:18} {:40} {:>9}", "call", "input", "bytes");
    CALLS.iter().map(measure).fold(true, |all, within| all & within)
}

fn main() {
    let thread = std::thread::Builder::new().stack_size(PAINTED + MIB);
    let within = thread.spawn(run).expect("a thread").join();
    if !within.unwrap_or(false) {
        std::process::exit(1);
    }
}
