//! Writes the stored cases of the programs `replay`, `replay_fill`, `replay_assembly` and
//! `replay_book`: what they read and what they have to print, from the Rust's answers
//! and, at the limits and for underscores that stay in an anchor, from the models.

mod json;
mod record_assembly;
mod record_book;
mod record_fill;
mod record_list;
mod record_named;
mod record_walk;

use std::fs;
use std::path::Path;

use jilgyemot_host::anchor::{SAID, anchor};
use jilgyemot_host::generate::{damaged, marked, straddling};
use jilgyemot_host::notes::{marker_in_each_line, notes};
use jilgyemot_host::oracle::Expected;
use jilgyemot_host::outline::outline;
use jilgyemot_host::random::Random;
use jilgyemot_host::regions::regions;

const USAGE: &str = "usage: record FOLDER --examples FILE, record FOLDER --fills, \
    record FOLDER --assemblies, or record FOLDER --books";

const MOST_TEXT: usize = 16_384;
const MOST_OUTPUT: usize = 65_536;

/// An output with room to spare for the listing of a short text.
const AMPLE: usize = 1_000;

/// Document 01's example (K1) and its listing.
const K1: &str = "# Stage\n\
    Limit <!--[const:MAX]-->6 m<!--[/]-->.\n\
    <!--[fragment:a.md:peer]-->\n\
    old\n\
    <!--[/]-->\n\
    <!--[/]-->\n";
const K1_LISTING: &str = "span\t2\t19\t28\t32\t35\nregion\t3\t5\t61\t65\t1\nproblem\t6\t6\n";

/// Document 01's K6 and its listing.
const K6: &str = "<!--[fragment:a:b]-->\n";
const K6_LISTING: &str = "problem\t1\t3\n";

/// A text for each problem, problem 1 first. The problem is the last in its listing.
const PROBLEMS: [&str; 10] = [
    "```\n<!--[k]-->\n```\n",
    "<!--[fragment:a]-->\n<!--[fragment:b]-->\n<!--[/]-->\n",
    "x <!--[fragment:a]-->\n",
    "<!--[fragment:a]-->\n",
    "<!--[fragment:a]-->\n~~~\n",
    "<!--[k]-->v<!--[/]--><!--[/]-->\n",
    "<!--[k\n",
    "<!--[k]-->v\n",
    "<!--[k]-->v<!--[l]-->w<!--[/]-->\n",
    "<!--[]-->v<!--[/]-->\n",
];

/// Shows after each line whether the scan is in a fence there.
const MARKED_LINE: &str = "<!--[k]-->v<!--[/]-->\n";

/// Headings of hand-written contents, and one that is none.
const CONTENTS: &str = "# Contents\n\
    ## table of contents\n\
    ###### TABLE OF CONTENTS\t \r\n\
    # contents *\n";

/// `replay` writes an anchor in blocks of 64 bytes.
const ANCHOR_LENGTHS: [usize; 5] = [63, 64, 65, 128, 200];

/// What `replay` reads and what it has to print.
#[derive(Default)]
struct Cases {
    stdin: Vec<u8>,
    stdout: Vec<u8>,
}

impl Cases {
    fn add(&mut self, text: &[u8], size: usize) {
        assert!(text.len() <= MOST_TEXT && size <= MOST_OUTPUT);
        let expected = Expected::of(text);
        let answer = expected.answer(size).map(|number| number.to_string()).join("\t");
        self.stdin.extend(format!("{:06} {size:06}\n", text.len()).bytes());
        self.stdin.extend(text);
        self.stdout.extend(format!("{answer}\n").bytes());
        self.stdout.extend(expected.written(size));
        if text.is_ascii() {
            let text = str::from_utf8(text).expect("ASCII is UTF-8");
            self.stdout.extend(outline(text).bytes());
        }
    }

    /// Once with room to spare, and once with exactly enough, one byte too
    /// little, none or a random size.
    fn add_twice(&mut self, text: &[u8], random: &mut Random) {
        let full = Expected::of(text).full_size();
        let other = match random.below(5) {
            0 | 1 => full,
            2 => full.saturating_sub(1),
            3 => 0,
            _ => random.within(0, full),
        };
        self.add(text, full + random.within(1, 300));
        self.add(text, other);
    }
}

fn listing(text: &str) -> String {
    let expected = Expected::of(text.as_bytes());
    String::from_utf8_lossy(expected.written(MOST_OUTPUT)).into_owned()
}

fn add_document_examples(cases: &mut Cases) {
    assert_eq!(listing(K1), K1_LISTING);
    for size in [MOST_OUTPUT, K1_LISTING.len(), K1_LISTING.len() - 1, 0] {
        cases.add(K1.as_bytes(), size);
    }
    assert_eq!(listing(K6), K6_LISTING);
    cases.add(K6.as_bytes(), 64);
    for (index, text) in PROBLEMS.iter().enumerate() {
        assert!(listing(text).ends_with(&format!("\t{}\n", index + 1)), "{text:?}");
        cases.add(text.as_bytes(), 64);
    }
    cases.add(b"", 0);
    cases.add(b"a\n\xe9\n", 64);
}

/// CommonMark's examples of headings and of fenced code blocks, the latter also
/// with the marked line after each of their lines.
fn add_commonmark(examples: &str, cases: &mut Cases) -> Option<()> {
    for object in json::objects(examples)? {
        let field = |name: &str| Some(&object.iter().find(|(found, _)| found == name)?.1);
        let markdown = field("markdown")?;
        cases.add(markdown.as_bytes(), AMPLE);
        if field("section")? == "4.5" {
            let marked: String =
                markdown.split_inclusive('\n').map(|line| line.to_string() + MARKED_LINE).collect();
            cases.add(marked.as_bytes(), AMPLE);
        }
    }
    Some(())
}

fn add_headings(cases: &mut Cases) {
    cases.add(CONTENTS.as_bytes(), AMPLE);
    let title = |length| "Ab1-xyz".chars().cycle().take(length).collect::<String>();
    let long = ANCHOR_LENGTHS.map(|length| format!("# {}\n", title(length)));
    cases.add(long.concat().as_bytes(), AMPLE);
}

/// Titles with underscores, whose anchors are told.
fn add_underscores(cases: &mut Cases) {
    let mut text = String::new();
    for (title, said) in SAID {
        let made = anchor(title).map(|(anchor, _)| anchor);
        assert_eq!(made.as_deref(), Ok(said), "{title}");
        text += &format!("# {title}\n");
    }
    cases.add(text.as_bytes(), AMPLE);
}

/// Many rows, of each kind by itself and of all together: with exactly enough
/// room and with one byte too little.
fn add_many_rows(cases: &mut Cases, random: &mut Random) {
    let mut mixed = Vec::new();
    while mixed.len() < 9_000 {
        mixed.extend(regions(random));
    }
    let spans = MARKED_LINE.repeat(60).into_bytes();
    let closed = b"<!--[fragment:a]-->\n<!--[/]-->\n".repeat(12);
    let problems = b"<!--[\n".repeat(1_400);
    for text in [spans, closed, problems, mixed] {
        let full = Expected::of(&text).full_size();
        cases.add(&text, full);
        cases.add(&text, full - 1);
    }
}

fn add_generated(cases: &mut Cases) {
    let mut random = Random::new(1);
    for kind in [regions, marked, straddling, damaged] {
        for _ in 0..60 {
            let text = kind(&mut random);
            if text.len() <= 800 {
                cases.add_twice(&text, &mut random);
            }
        }
    }
    add_many_rows(cases, &mut random);
    cases.add_twice(&notes(4_000, &mut random), &mut random);
    cases.add(&marker_in_each_line(MOST_TEXT), MOST_OUTPUT);
}

fn add_scans(examples: &str, cases: &mut Cases) {
    add_document_examples(cases);
    add_commonmark(examples, cases).expect("a list of examples");
    add_headings(cases);
    add_underscores(cases);
    record_named::scans().iter().for_each(|text| cases.add(text, AMPLE));
    add_generated(cases);
}

fn main() -> std::io::Result<()> {
    let words: Vec<String> = std::env::args().skip(1).collect();
    let mut cases = Cases::default();
    let folder = match words.as_slice() {
        [folder, option, examples] if option == "--examples" => {
            add_scans(&fs::read_to_string(examples)?, &mut cases);
            folder
        }
        [folder, option] if option == "--fills" => {
            record_fill::add_fills(&mut cases);
            folder
        }
        [folder, option] if option == "--assemblies" => {
            record_assembly::add_assemblies(&mut cases);
            folder
        }
        [folder, option] if option == "--books" => {
            record_book::add_books(&mut cases);
            folder
        }
        _ => {
            eprintln!("{USAGE}");
            std::process::exit(2);
        }
    };
    fs::write(Path::new(folder).join("stdin"), cases.stdin)?;
    fs::write(Path::new(folder).join("stdout"), cases.stdout)
}
