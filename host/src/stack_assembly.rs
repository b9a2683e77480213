//! What the stack of an assembly is measured on.

use crate::Outcome::{self, Accepted, Refused};
use crate::notes::notes;
use crate::random::Random;
use crate::stack_set::{File, input_of_list};
use crate::{Input, KIB, MIB};

/// Behind 63 members: the text of the last, the limit and the outcome.
const LAST: [(&str, &str, usize, Outcome); 5] = [
    ("64 members", "# Last\n# A\n", 64 * KIB, Accepted),
    ("64 members, one with no title", "## Last\n", 64 * KIB, Refused(18)),
    ("64 members, an anchor shared", "# Last\n# Station 0\n", 64 * KIB, Refused(19)),
    ("64 members, a level too deep", "# Last\n# A\n###### B\n", 64 * KIB, Refused(16)),
    ("64 members, a text too long", "# Last\n", 200, Refused(17)),
];

pub fn assemblies() -> Vec<Input> {
    let mut noted = b"# Station\n".to_vec();
    noted.extend(notes(800 * KIB, &mut Random::new(1)));
    let wide = vec![("a".to_string(), b"# T\n\x80".to_vec())];
    let last = |text: &[u8]| [stations(63), vec![("last".to_string(), text.to_vec())]].concat();
    let mut inputs = vec![
        assembly("no file, an empty list", &[], &[], 1, Accepted),
        assembly("a limit of 0", &[], &[], 0, Refused(8)),
        assembly("a name that is no record's", &[], &["a"], KIB, Refused(14)),
        assembly("a byte 80 hex", &wide, &["a"], KIB, Refused(5)),
        of_all("one member", &stations(1), KIB, Accepted),
        of_all("one member of notes, 800 KiB", &[("a".to_string(), noted)], MIB, Accepted),
        of_all("one member, 5,000 headings", &one(&headings()), 256 * KIB, Accepted),
        of_all("one member, long headings", &one(&long_headings()), 256 * KIB, Accepted),
        of_all("one member, contents and fences", &one(&contents()), 64 * KIB, Accepted),
        of_all("64 members, links", &last(links().as_bytes()), 64 * KIB, Accepted),
        assembly("64 times one member", &stations(1), &["0"; 64], 64 * KIB, Accepted),
    ];
    for (name, text, limit, outcome) in LAST {
        inputs.push(of_all(name, &last(text.as_bytes()), limit, outcome));
    }
    inputs
}

fn assembly(
    name: &'static str,
    files: &[File],
    list: &[&str],
    limit: usize,
    outcome: Outcome,
) -> Input {
    input_of_list(name, files, list, limit, &[], outcome)
}

/// All files are listed, in order.
fn of_all(name: &'static str, files: &[File], limit: usize, outcome: Outcome) -> Input {
    assembly(name, files, &names(files), limit, outcome)
}

pub fn names(files: &[File]) -> Vec<&str> {
    files.iter().map(|(name, _)| &name[..]).collect()
}

fn one(text: &str) -> Vec<File> {
    vec![("docs/a.md".to_string(), text.as_bytes().to_vec())]
}

/// Members `0`, `1` and so on with a heading, a link and a fence each.
pub fn stations(count: usize) -> Vec<File> {
    let text = |at: usize| {
        format!("# Station {at}\n\n# Datum {at}\n\n[next](./x/../{})\n```\n# A\n```\n", at + 1)
    };
    (0..count).map(|at| (at.to_string(), text(at).into_bytes())).collect()
}

fn headings() -> String {
    let levels = ["#", "##", "###", "####", "#####"];
    let heading = |at: usize| format!("{} Reading *{at}* [of](a.md)\n", levels[at % 5]);
    "# T\n".to_string() + &(0..5_000).map(heading).collect::<String>()
}

/// Also one with the anchor of the title.
fn long_headings() -> String {
    let words = "a `gauge` [w](b.md) ".repeat(2_000);
    format!("# {words}\n## {words}\n[w](a.md) [w](/docs/a.md#k)\n")
}

fn contents() -> String {
    let part =
        "## Contents\n- [a](#a)\n## Table of contents\n\n#tag\n```\n# Contents\n```\n<!--\n-->\n";
    "# T\n".to_string() + &part.repeat(200)
}

/// Links with a long path, with one of many parts, to a member and to none.
fn links() -> String {
    let (long, parts) = ("x".repeat(1_000), "a/../".repeat(1_000));
    format!("# Last\n[w]({long}#k) [w]({parts}0) [w]({parts}{long}) [w](../../5#k)\n")
}
