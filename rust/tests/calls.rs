//! Each call with each kind of answer that it gives.

mod common;

use common::{File, Outcome, assembly_of, book_of, call_in, fill_of};
use jilgyemot::{Answer, Limits, Place, scan, work_size};

const LIMITS: Limits = Limits { text: 512, files: 9 };

const STEPS: File = ("docs/steps.md", "# Steps\n\nClose, then [read](../host.md#g).\n");
const HOST: File = ("host.md", "# Gauge\n\n<!--[fragment:docs/steps.md]-->\n<!--[/]-->\n");

fn accepted(text: &str, files: u64) -> Outcome {
    Ok(Some((text.to_string(), files)))
}

/// The number and both places of a refusal, each as file and line.
fn refused(outcome: Outcome) -> (u64, (usize, usize), (usize, usize)) {
    let refusal = outcome.expect_err("a refusal");
    let numbers = |Place { file, line }| (file, line);
    (refusal.number(), numbers(refusal.place()), numbers(refusal.second()))
}

fn scan_in(size: usize, text: &[u8]) -> Outcome {
    call_in((size, 0), |out, _| scan(text, out))
}

#[test]
fn a_scan_lists_spans_regions_and_problems() {
    let text = b"# Stage\nLimit <!--[const:MAX]-->6 m<!--[/]-->.\n\
        <!--[fragment:a.md:peer]-->\nold\n<!--[/]-->\n<!--[/]-->\n";
    let listing = "span\t2\t19\t28\t32\t35\nregion\t3\t5\t61\t65\t1\nproblem\t6\t6\n";
    assert_eq!(scan_in(64, text), accepted(listing, 0));
    assert_eq!(scan_in(listing.len(), text), accepted(listing, 0), "an output just as long");
    assert_eq!(refused(scan_in(listing.len() - 1, text)), (17, (0, 0), (0, 0)));
    assert_eq!(refused(scan_in(64, b"a\nb \xE9")), (5, (0, 2), (0, 0)));
}

#[test]
fn empty_slices_are_accepted() {
    assert_eq!(scan_in(0, b""), accepted("", 0));
    assert_eq!(fill_of(&[], ("h", ""), LIMITS), Ok(None));
    assert_eq!(assembly_of(&[], &[], 1), accepted("\n", 0));
    assert_eq!(book_of(&[], &[], Limits { text: 1, files: 0 }), accepted("\n", 0));
}

#[test]
fn a_fill_puts_files_into_a_host() {
    let filled = "# Gauge\n\n<!--[fragment:docs/steps.md]-->\n\
        ## Steps\n\nClose, then [read](#g).\n<!--[/]-->\n";
    assert_eq!(fill_of(&[STEPS], HOST, LIMITS), accepted(filled, 1));
    let just = Limits { text: filled.len(), files: 1 };
    assert_eq!(fill_of(&[STEPS], HOST, just), accepted(filled, 1));
    let short = Limits { text: filled.len() - 1, files: 1 };
    assert_eq!(refused(fill_of(&[STEPS], HOST, short)), (17, (0, 0), (0, 0)));
    let none = Limits { text: filled.len(), files: 0 };
    assert_eq!(refused(fill_of(&[STEPS], HOST, none)), (15, (0, 3), (0, 0)));
    assert_eq!(fill_of(&[STEPS], ("host.md", "# Gauge\n"), LIMITS), Ok(None));
    assert_eq!(refused(fill_of(&[], HOST, LIMITS)), (14, (0, 3), (0, 0)));
}

#[test]
fn an_assembly_joins_members() {
    let gauge = ("docs/gauge.md", "# Gauge\n\n# Datum\n\n[pump](pump.md), [rules](../r.md#k)\n");
    let pump = ("docs/pump.md", "# Pump\n");
    let old = ("docs/old.md", "# Old\n\n# Datum\n");
    let files = [gauge, pump, old];
    let joined = "# Gauge\n\n## Datum\n\n[pump](#pump), \
        [rules](https://river.example/blob/main/r.md#k)\n\n---\n\n# Pump\n";
    let names = ["docs/gauge.md", "docs/pump.md"];
    assert_eq!(assembly_of(&files, &names, joined.len()), accepted(joined, 0));
    let short = assembly_of(&files, &names, joined.len() - 1);
    assert_eq!(refused(short), (17, (2, 0), (0, 0)));
    let shared = assembly_of(&files, &["docs/gauge.md", "docs/old.md"], 512);
    assert_eq!(refused(shared), (19, (3, 3), (1, 3)));
    assert_eq!(refused(assembly_of(&files, &["docs/no.md"], 512)), (14, (0, 1), (0, 0)));
}

#[test]
fn a_book_fills_and_joins_members() {
    let pump = ("docs/pump.md", "# Pump\n");
    let files = [STEPS, HOST, pump];
    let text = "# Gauge\n\n<!--[fragment:docs/steps.md]-->\n## Steps\n\n\
        Close, then [read](#g).\n<!--[/]-->\n\n---\n\n# Pump\n";
    let names = ["host.md", "docs/pump.md"];
    let just = Limits { text: text.len(), files: 1 };
    assert_eq!(book_of(&files, &names, just), accepted(text, 1));
    let none = Limits { text: text.len(), files: 0 };
    assert_eq!(refused(book_of(&files, &names, none)), (15, (2, 3), (0, 0)));
    let twice = book_of(&files, &["host.md", "host.md"], LIMITS);
    assert_eq!(twice.map(|made| made.map(|(_, files)| files)), Ok(Some(2)));
}

#[test]
fn an_answer_is_a_result() {
    let mut out = [0; 8];
    assert_eq!(scan(b"", &mut out).text(), Ok(Some(&b""[..])));
    assert_eq!(Answer::NoRegion.text(), Ok(None));
    let refusal = scan(b"\x80", &mut out).text().expect_err("a byte that is not ASCII");
    assert_eq!(refusal.number(), 5);
    let error: Box<dyn std::error::Error> = refusal.into();
    assert_eq!(error.to_string(), refusal.to_string());
}

#[test]
fn work_is_as_large_as_document_01_asks_for() {
    assert_eq!(work_size(0, 0, 1), 2);
    assert_eq!(work_size(2, 3, 100), 700);
    assert_eq!(work_size(64, 64, 1_048_576), 136_314_880);
    for (records, lines, limit) in [(usize::MAX, 1, 1), (1, usize::MAX, 1), (1, 1, usize::MAX)] {
        assert_eq!(work_size(records, lines, limit), usize::MAX);
    }
    assert_eq!(work_size(usize::MAX, usize::MAX, 0), 0);
}

#[test]
fn a_buffer_that_is_a_byte_short_is_refused() {
    use jilgyemot::{FileSet, Members, book};
    let set = FileSet { index: b"a\t0\t4\n", contents: b"# T\n" };
    let members = Members { list: b"a\n", url: b"u" };
    let limits = Limits { text: 16, files: 0 };
    let work = work_size(1, 1, 16);
    for (sizes, outcome) in [((16, work), Ok(())), ((15, work), Err(8)), ((16, work - 1), Err(8))] {
        let made = call_in(sizes, |out, work| book(set, members, limits, out, work));
        assert_eq!(made.map(|_| ()).map_err(|refusal| refusal.number()), outcome);
    }
}
