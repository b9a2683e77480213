//! Document 01's examples of a fill: a host `h` and one file `b`, or a set of files.

use super::case::Case;
use crate::answer::Answer;

pub fn of_file(host: &str, file: &str) -> Case {
    Case::of(&[(b"b".to_vec(), file.as_bytes().to_vec())], b"h", host.as_bytes())
}

const CHILD: &str = "# H\n<!--[fragment:b]-->\n<!--[/]-->\n";
const PEER: &str = "# H\n<!--[fragment:b:peer]-->\n<!--[/]-->\n";

/// A comment, and a fence that the scan does not see, before a region and behind it.
const ACROSS_COMMENT: &str =
    "# H\n<!--\n<!--[fragment:b]-->\n<!--[/]-->\n## I\n<!--[fragment:b]-->\n<!--[/]-->\n";
const ACROSS_FENCE: &str =
    "# H\n```\n~~~\n<!--[fragment:b]-->\n<!--[/]-->\n## I\n<!--[fragment:b]-->\n<!--[/]-->\n";

/// K7 to K9: the host, the file, the six numbers and the text.
pub const CHECKS: [(&str, &str, Answer, &str); 3] = [
    (CHILD, "# B \n", [0, 40, 1, 0, 0, 0], "# H\n<!--[fragment:b]-->\n## B\n<!--[/]-->\n"),
    (PEER, "# B \n", [0, 44, 1, 0, 0, 0], "# H\n<!--[fragment:b:peer]-->\n# B\n<!--[/]-->\n"),
    (CHILD, "# B\n###### C\n", [2, 16, 1, 2, 0, 0], ""),
];

/// Hosts and files: the example for each refusal of the walk but 15 and 17, which
/// limits give; "no region"; fences and comments, with the faults that a port
/// invites, so that a heading counts for a region's level or does not; blank ends;
/// links.
const OF_FILE: [(&str, &str); 25] = [
    ("<!--[fragment:b]-->\n<!--[fragment:b]-->\n<!--[/]-->\n", ""),
    ("x <!--[fragment:a]-->\n", ""),
    ("<!--[fragment:b]-->\n", ""),
    ("<!--[fragment:b:peer]-->\n<!--[/]-->\n", ""),
    ("<!--[fragment:h:peer]-->\n<!--[/]-->\n", ""),
    (CHILD, "<!--[fragment:b]-->\n<!--[/]-->\n"),
    (CHILD, "<!--[fragment:h]-->\n<!--[/]-->\n"),
    (CHILD, "text\n<!--[fragment:zz]-->\n<!--[/]-->\n"),
    ("###### H\n<!--[fragment:b]-->\n<!--[/]-->\n", "# B\n"),
    (CHILD, "\n \n# B\n###### C\n"),
    ("# H\ntext\n", "# B\n"),
    ("# H\n<!--[fragment:b]-->\nold\n<!--[/]-->", "\n \ntext\n\n"),
    ("# H\n<!--\n```\n-->\n## I\n```\n<!--[fragment:b]-->\n<!--[/]-->\n", "# B\n"),
    ("# H\n<!-->\n## I\n-->\n<!--[fragment:b]-->\n<!--[/]-->\n", "# B\n"),
    ("# H\n<!--\n## I -->\n<!--[fragment:b]-->\n<!--[/]-->\n", "# B\n"),
    ("# H\n \t```\n## I\n```\n<!--[fragment:b]-->\n<!--[/]-->\n", "# B\n"),
    ("# H\n```\n~~~\n## I\n<!--[fragment:b]-->\n<!--[/]-->\n", "# B\n"),
    ("# H\n<!--[fragment:b]-->\n<!--[/]-->\n<!--[fragment:b]-->\n<!--[/]-->\n", "# B\n## C\n"),
    (ACROSS_COMMENT, "# B\n"),
    (ACROSS_FENCE, "# B\n"),
    (CHILD, "##  B\t\r\n"),
    (CHILD, "[v](h#k) [w](h) [x](./h#)\r\n```\n [y](/h#k)\n"),
    ("<!--[fragment:b]-->\n<!--[/]-->\n## I\n# J\n", "# B\n"),
    (CHILD, "# B\n###### C\n###### D\n"),
    (CHILD, "# [w](h#k)\n"),
];

/// The files, the host's name and its text: a second region of a file taken in that
/// has a fence left open; a name in capitals; links to a host whose name reads as a
/// URL, and past the root.
const OF_FILES: [(&[(&str, &str)], &str, &str); 4] = [
    (&[("a", TWO), ("b", "x\n"), ("c", "~~~\n")], "h", "<!--[fragment:a]-->\n<!--[/]-->\n"),
    (&[("b", "")], "h", "<!--[fragment:B]-->\n<!--[/]-->\n"),
    (&[("b", "[w](a://b#k)\n")], "a:/b", CHILD),
    (&[("d/b", "[w](../../h#k)\n")], "h", "<!--[fragment:d/b]-->\n<!--[/]-->\n"),
];

const TWO: &str = "<!--[fragment:b]-->\n<!--[/]-->\n# A\n<!--[fragment:c]-->\n<!--[/]-->\n";

/// Every example but the checks.
pub fn examples() -> impl Iterator<Item = Case> {
    let of_files = OF_FILES.into_iter().map(|(files, name, text)| {
        let file = |(name, text): &(&str, &str)| (name.bytes().collect(), text.bytes().collect());
        Case::of(&files.iter().map(file).collect::<Vec<_>>(), name.as_bytes(), text.as_bytes())
    });
    OF_FILE.into_iter().map(|(host, file)| of_file(host, file)).chain(of_files)
}
