//! Every refusal, given by a call, in words.

mod common;

use common::{File, URL, assembly_of, book_of, call_in, fill_of, set_of};
use jilgyemot::{Answer, FileSet, Limits, Members, Place, Refusal, book, work_size};

const LIMITS: Limits = Limits { text: 256, files: 9 };

/// The refusal of a book by its parts as they are.
fn of_parts(index: &[u8], contents: &[u8], list: &[u8], url: &[u8]) -> Refusal {
    let (set, members) = (FileSet { index, contents }, Members { list, url });
    let sizes = (LIMITS.text, work_size(65, 65, LIMITS.text));
    let made = call_in(sizes, |out, work| book(set, members, LIMITS, out, work));
    made.expect_err("a refusal")
}

/// The refusal of a book of file `a` alone, and `b` beside it.
fn of_text(text: &str, limits: Limits) -> Refusal {
    book_of(&[("a", text), ("b", "# B\n###### C\n")], &["a"], limits).expect_err("a refusal")
}

/// Refusals 1 to 8.
fn before_the_walk() -> [Refusal; 8] {
    let many: String = (0..65).map(|at| format!("n{at}\t0\t0\n")).collect();
    [
        of_parts(b"a\t0\n", b"", b"", URL),
        of_parts(many.as_bytes(), b"", b"", URL),
        of_parts(b"a\t0\t5\n", b"# T\n", b"", URL),
        of_parts(b"a\t0\t0\na\t0\t0\n", b"", b"", URL),
        of_parts(b"a\t0\t0\nb\t0\t4\n", b"# T\xE9", b"", URL),
        of_parts(b"", b"", b"", b""),
        of_parts(b"a\t0\t0\n", b"", b"a", URL),
        of_text("# T\n", Limits { text: 0, files: 0 }),
    ]
}

/// Refusals 9 to 16.
fn of_fills() -> [Refusal; 8] {
    let (opener, closer) = ("<!--[fragment:b]-->\n", "<!--[/]-->\n");
    let region = |path: &str| format!("# T\n<!--[fragment:{path}]-->\n{closer}");
    [
        of_text(&format!("# T\n{opener}{opener}{closer}"), LIMITS),
        of_text(&format!("# T\nx {opener}"), LIMITS),
        of_text(opener, LIMITS),
        of_text(&format!("<!--[fragment:b:peer]-->\n{closer}"), LIMITS),
        of_text(&region("a"), LIMITS),
        of_text(&region("zz"), LIMITS),
        of_text(&region("b"), Limits { text: 256, files: 0 }),
        of_text(&region("b"), LIMITS),
    ]
}

/// Refusals 17 to 19.
fn of_assemblies() -> [Refusal; 3] {
    let shared = assembly_of(&[("a", "# T\n"), ("b", "# U\n# T\n")], &["a", "b"], 256);
    [
        of_text("# T\n", Limits { text: 1, files: 0 }),
        of_text("## T\n", LIMITS),
        shared.expect_err("a refusal"),
    ]
}

/// These refusals in words.
const WORDS: [&str; 19] = [
    "index line 1: the name is not 1 to 255 printable ASCII bytes, or its index line is \
     ill formed: rename the file (refusal 1)",
    "index line 65: there are more than 64 records: give fewer files (refusal 2)",
    "index line 1: the record's part ends past the contents: mend its start or its \
     length (refusal 3)",
    "index line 2: the name was given before: give each file once (refusal 4)",
    "file 2, line 1: the line holds a byte that is not ASCII: write it in ASCII \
     (refusal 5)",
    "the URL, or the name of a host, is not 1 to 255 printable ASCII bytes: mend it \
     (refusal 6)",
    "the list has more than 64 lines or its last line has no end: mend the list \
     (refusal 7)",
    "the text limit is not 1 to 1,048,576, or a buffer is too short for it: change the \
     limit or lend larger buffers (refusal 8)",
    "file 1, line 3: the region is opened inside a region: close the first one above it \
     (refusal 9)",
    "file 1, line 2: the fragment marker shares its line or is ill spelled: write \
     <!--[fragment:PATH]--> alone on a line (refusal 10)",
    "file 1, line 1: the region is never closed: put <!--[/]--> on a line below it \
     (refusal 11)",
    "file 1, line 1: the region takes in a peer and no heading of the file stands above \
     it: put a heading above, or leave :peer out (refusal 12)",
    "file 1, line 2: the region names a file, which is already on its chain (refusal 13)",
    "file 1, line 2: the line names a file, which is not among the notes: mend the name \
     or give the note (refusal 14)",
    "file 1, line 2: as many files as the allowance has are taken in already: a limit \
     was met, no file needs mending (refusal 15)",
    "file 2, line 2: the heading would be past level 6 where its text stands (lines count \
     the text as it stands there): give it fewer hashes, or take the text in under a \
     higher heading (refusal 16)",
    "file 1: the text made here is too long for the text limit or the output: a limit was \
     met, no file needs mending (refusal 17)",
    "file 1: the member has no heading of level 1: give it a title (refusal 18)",
    "file 2, line 2: the heading has the same anchor as file 1, line 1 (lines count the \
     notes as filled, without hand-written contents): change one of the two, or let only \
     one of the notes take it in (refusal 19)",
];

#[test]
fn every_refusal_has_its_words() {
    let refusals = before_the_walk().into_iter().chain(of_fills()).chain(of_assemblies());
    let refusals: Vec<Refusal> = refusals.collect();
    assert!(refusals.iter().map(Refusal::number).eq(1..=19));
    let words: Vec<String> = refusals.iter().map(Refusal::to_string).collect();
    assert_eq!(words, WORDS);
}

#[test]
fn a_place_leaves_out_what_is_0() {
    let words = |file, line| Place { file, line }.to_string();
    assert_eq!(words(2, 12), "file 2, line 12");
    assert_eq!(words(2, 0), "file 2");
    assert_eq!(words(0, 12), "line 12");
    assert_eq!(words(0, 0), "");
}

const NOTES: [File; 2] = [("docs/gauge.md", "# Gauge\n## T\n"), ("it's \"b\".md", "# U\n# T\n")];

#[test]
fn names_stand_for_files() {
    let (index, _) = set_of(&NOTES);
    let shared = assembly_of(&NOTES, &["docs/gauge.md", "it's \"b\".md"], 256);
    let words = "it's \"b\".md:2: the heading has the same anchor as docs/gauge.md:2 \
        (lines count the notes as filled, without hand-written contents): change one of \
        the two, or let only one of the notes take it in (refusal 19)";
    assert_eq!(shared.expect_err("a refusal").named(&index).to_string(), words);
    let untitled = [("docs/gauge.md", "## Gauge\n")];
    let refusal = assembly_of(&untitled, &["docs/gauge.md"], 256).expect_err("a refusal");
    let words = "docs/gauge.md: the member has no heading of level 1: give it a title (refusal 18)";
    assert_eq!(refusal.named(&index).to_string(), words);
}

#[test]
fn a_place_without_a_name_keeps_its_numbers() {
    let (index, _) = set_of(&NOTES);
    let host = ("host.md", "<!--[fragment:zz]-->\n<!--[/]-->\n");
    let refusal = fill_of(&NOTES, host, LIMITS).expect_err("a refusal");
    let words = "line 1: the line names a file, which is not among the notes: \
        mend the name or give the note (refusal 14)";
    assert_eq!(refusal.named(&index).to_string(), words);

    let Answer::Refused(third) = Answer::from_numbers([2, 18, 3, 0, 0, 0], b"") else {
        panic!("a refusal");
    };
    for index in [&index[..], b"", b"\n\n\n", b"a\n"] {
        assert_eq!(third.named(index).to_string(), third.to_string());
    }
}

/// What stands before the sentence of a book's refusal by its index, and the number.
fn start_by_index(index: &[u8]) -> (String, u64) {
    let refusal = of_parts(index, b"# T\n", b"", URL);
    let words = refusal.named(index).to_string();
    let start = words.split(": ").next().expect("a place");
    assert!(words[start.len()..].starts_with(&format!(": {} (", refusal.sentence())));
    (start.to_string(), refusal.number())
}

#[test]
fn an_index_line_is_told_by_its_name() {
    let many: String = (1..=65).map(|at| format!("n{at}\t0\t0\n")).collect();
    let cases: [(&[u8], &str, u64); 5] = [
        (b"a\t0\t0\ndocs/b.md\t0\n", "docs/b.md", 1),
        (b"a\t0\t0\nb\t00\t0", "b", 1),
        (many.as_bytes(), "n65", 2),
        (b"a\t0\t0\nit's ~.md\t0\t5\n", "it's ~.md", 3),
        (b"docs/a.md\t0\t4\nb\t0\t0\ndocs/a.md\t0\t4\n", "docs/a.md", 4),
    ];
    for (index, start, number) in cases {
        assert_eq!(start_by_index(index), (start.to_string(), number));
    }
}

#[test]
fn an_index_line_without_a_name_keeps_its_number() {
    let lines: [&[u8]; 6] = [b"", b"b", b"\t0\t0", b"b\x1F\t0\t0", b"b\x7F\t0\t0", b"\xE9\t0\t0"];
    for line in lines {
        let index = [b"a\t0\t0\n", line, b"\n"].concat();
        assert_eq!(start_by_index(&index), ("index line 2".to_string(), 1));
    }
}

#[test]
fn a_name_in_an_index_line_has_255_bytes_at_most() {
    let named = |size| format!("{}\t0\t5\n", "n".repeat(size));
    assert_eq!(start_by_index(named(255).as_bytes()), ("n".repeat(255), 3));
    assert_eq!(start_by_index(named(256).as_bytes()), ("index line 1".to_string(), 1));
}
