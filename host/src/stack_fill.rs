//! What the stack of a fill is measured on.

use crate::Outcome::{self, Accepted, NoRegion, Refused};
use crate::notes::{long_line, notes};
use crate::random::Random;
use crate::stack_set::{File, input};
use crate::{Input, KIB, MIB};

/// Fills of 64 files, each taking in the next one: the text of the last, limit,
/// allowance and outcome.
pub const DEEP: [(&str, &str, usize, u64, Outcome); 7] = [
    ("64 files deep", "text\n", 64 * KIB, 64, Accepted),
    ("64 files deep, a problem", "x <!--[fragment:a]-->", KIB, 64, Refused(10)),
    ("64 files deep, a circle", "<!--[fragment:0]-->\n<!--[/]-->", KIB, 64, Refused(13)),
    ("64 files deep, no such file", "<!--[fragment:a]-->\n<!--[/]-->", KIB, 64, Refused(14)),
    ("64 files deep, one too many", "text\n", KIB, 63, Refused(15)),
    ("64 files deep, a level too deep", "# A\n###### B\n", KIB, 64, Refused(16)),
    ("64 files deep, a text too long", "text\n", 200, 64, Refused(17)),
];

pub fn fills() -> Vec<Input> {
    let long = notes(64 * KIB, &mut Random::new(1));
    let steps = ("docs/fragments/steps.md".to_string(), b"# Steps\n\ntext\n".to_vec());
    let small = ("small".to_string(), b"# Small\n[w](h#k)\n".to_vec());
    let many = "# H\n".to_string() + &region("small").repeat(2_000);
    let host = || region("0").into_bytes();
    let mut inputs = vec![
        fill("empty", &[], Vec::new(), 1, 0, NoRegion),
        fill("no region, 1 MiB", &[], long_line(MIB, ""), 1, 0, NoRegion),
        fill("a limit of 0", &[], Vec::new(), 0, 0, Refused(8)),
        fill("one file", &chain(1, "text\n"), host(), KIB, 1, Accepted),
        fill("one file that names the host", &chain(1, &region("h")), host(), KIB, 1, Refused(13)),
        fill("notes, 64 KiB", &[steps], long, 128 * KIB, 9_999, Accepted),
        fill("2,000 regions of one file", &[small], many.into(), 128 * KIB, 2_000, Accepted),
        fill("64 files deep, links", &chain(64, &links()), host(), 64 * KIB, 64, Accepted),
    ];
    for (name, last, limit, allowance, outcome) in DEEP {
        inputs.push(fill(name, &chain(64, last), host(), limit, allowance, outcome));
    }
    inputs
}

fn fill(
    name: &'static str,
    files: &[File],
    host: Vec<u8>,
    limit: usize,
    allowance: u64,
    outcome: Outcome,
) -> Input {
    let rest = [b"h".to_vec(), host];
    input(name, files, rest, limit, &[allowance], files.len(), outcome)
}

pub fn region(name: &str) -> String {
    format!("<!--[fragment:{name}]-->\n<!--[/]-->\n")
}

/// Files `0`, `1` and so on, each taking in the next one, and the last one's text.
/// No heading stands above a region, so every level is 2.
pub fn chain(count: usize, last: &str) -> Vec<File> {
    let text = |at: usize| match at + 1 {
        next if next < count => region(&next.to_string()) + "## Behind\n\n[w](h#k)\n",
        _ => last.to_string(),
    };
    (0..count).map(|at| (at.to_string(), text(at).into_bytes())).collect()
}

/// A link with a long path, and one of many parts.
pub fn links() -> String {
    format!("[w]({}#k) [w]({}h#k)\n", "x".repeat(1_000), "a/../".repeat(1_000))
}
