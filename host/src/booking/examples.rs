//! Examples for the rules of a book that are not those of a fill or an assembly alone.

use crate::assembling::case::Case;
use crate::assembling::examples::{Example, URL, examples as assembly_examples, of_example};
use crate::filling::case::Case as Fill;
use crate::filling::examples::examples as fill_examples;
use crate::walking::set::FileSet;

/// Takes in `c`.
const A: &str = "# A\n<!--[fragment:c]-->\nold\n<!--[/]-->\n";
const B: &str = "# B\n<!--[fragment:c]-->\n<!--[/]-->\n\n<!--[fragment:c]-->\n<!--[/]-->\ntext\n";

/// Takes in `c`, under a title whose underscore stays.
const WEIR: &str = "# weir_3\n<!--[fragment:c]-->\nold\n<!--[/]-->\n";

/// Hand-written contents that are longer than all that is put.
const LONG: &str = "# A\n# Contents\n- a\n- b\n- c\n- d\n- e\n- f\n- g\n- h\n- i\n- j\n- k\n- l\n";

/// In this order: B running on through the list, a name listed twice, members with no
/// region; which fault comes first; members and files that share headings; lines of
/// refusals; contents, titles, fences and comments that a region brings; links;
/// underscores that stay in an anchor or go.
const OF_LISTS: [Example; 47] = [
    (&[("a", A), ("b", B), ("c", "text\n")], &["a", "b"], URL),
    (&[("a", A), ("b", B), ("c", "text\n")], &["b", "a", "b"], URL),
    (&[("a", A), ("b", "# B\n"), ("c", "text\n")], &["b", "a", "b", "a"], URL),
    (&[("a", A), ("b", "# B\n# C\n"), ("c", "")], &["b", "a"], URL),
    (&[("a", LONG), ("b", "# B\n \n\t\n\n\n\n\n\n\n\n\n")], &["a", "b"], URL),
    (&[("a", A), ("c", LONG)], &["a"], URL),
    (&[("a", A), ("c", "\n\n\n\n\n\n\n\n\n\n\n\ntext\n\n\n\n\n\n\n\n\n\n\n\n\n")], &["a"], URL),
    (&[("a", "text\n"), ("b", "x <!--[fragment:c]-->\n")], &["a", "b"], URL),
    (&[("a", "text\n"), ("b", B)], &["a", "b"], URL),
    (&[("a", "# T\n# S\n###### R\n"), ("b", B), ("c", "# C\n###### D\n")], &["a", "b"], URL),
    (&[("a", "# T\n"), ("b", "# T\n<!--[fragment:b]-->\n<!--[/]-->\n")], &["a", "b"], URL),
    (&[("a", A), ("c", "<!--[fragment:a]-->\n<!--[/]-->\n")], &["a"], URL),
    (&[("a", A), ("c", "<!--[fragment:c]-->\n<!--[/]-->\n")], &["a"], URL),
    (&[("a", A), ("b", "# B\n"), ("c", "<!--[fragment:b]-->\n<!--[/]-->\n")], &["b", "a"], URL),
    (&[("a", A), ("c", "text\n<!--[fragment:zz]-->\n<!--[/]-->\n")], &["a"], URL),
    (&[("a", A), ("b", B), ("c", "# C\n")], &["a", "b"], URL),
    (&[("a", A), ("c", "# C\n")], &["a", "c"], URL),
    (&[("a", A), ("c", "# C\n")], &["a", "a"], URL),
    (&[("a", A), ("b", "# C\n\n# D\n"), ("c", "# A\n\n# D\n")], &["a", "b"], URL),
    (
        &[("a", "# A\n# Contents\n<!--[fragment:c]-->\n<!--[/]-->\n# D\n"), ("c", "# C\n")],
        &["a"],
        URL,
    ),
    (&[("a", "# A\n# Contents\n<!--[fragment:c]-->\n<!--[/]-->\n"), ("c", "text\n")], &["a"], URL),
    (&[("a", A), ("b", "# C\n"), ("c", "# Contents\n- [c](#c)\n")], &["a", "b"], URL),
    (&[("a", A), ("c", "# Contents\ntext\n## C\n")], &["a"], URL),
    (&[("a", "<!--[fragment:c]-->\n<!--[/]-->\n"), ("c", "## C\n\n### D\n")], &["a"], URL),
    (&[("a", "## A\n<!--[fragment:c]-->\n<!--[/]-->\n"), ("c", "# C\n")], &["a"], URL),
    (&[("a", "## A\n<!--[fragment:c:peer]-->\n<!--[/]-->\n# T\n"), ("c", "# C\n")], &["a"], URL),
    (&[("a", "# A\n<!--[fragment:c]-->\n<!--[/]-->\n# D\n"), ("c", "```\n")], &["a"], URL),
    (&[("a", "# A\n<!--[fragment:c]-->\n<!--[/]-->\n# D\n[w](b)\n"), ("c", "<!--\n")], &["a"], URL),
    (
        &[("a", "# A\n<!--[fragment:c]-->\n<!--[/]-->\n# D\n-->\n"), ("c", "~~~\n[w](b)")],
        &["a"],
        URL,
    ),
    (&[("a", "# A\n# B\n##### C\n<!--[fragment:c]-->\n<!--[/]-->\n"), ("c", "# D\n")], &["a"], URL),
    (
        &[("a", "# A\n##### B\n<!--[fragment:c]-->\n<!--[/]-->\n"), ("c", "\n# D\n## E\n")],
        &["a"],
        URL,
    ),
    (
        &[
            ("d/a", "# A\n<!--[fragment:e/c]-->\n<!--[/]-->\n"),
            ("e/c", "[w](../d/a#k) [w](x) [w](c)\n"),
        ],
        &["d/a"],
        URL,
    ),
    (
        &[("a", A), ("b", "# B\n[w](c)\n"), ("c", "[w](a) [w](b) [w](a#k) [w](c)\n")],
        &["a", "b"],
        URL,
    ),
    (&[("a", A), ("c", "[w](c)\n```\n[w](a#k)\n```\n")], &["a"], "h//"),
    (&[("a", A), ("c", "x <!--[k]-->v<!--[/]-->\n")], &["a"], URL),
    (
        &[("a:b", "# A\n<!--[fragment:c]-->\n<!--[/]-->\n"), ("c", "[w](a:b#k) [w](a:b)\n")],
        &["a:b"],
        URL,
    ),
    (
        &[("a", WEIR), ("b", "# B\n[w](a)\n"), ("c", "[w](a) [w](b) [w](a#weir3)\n")],
        &["a", "b"],
        URL,
    ),
    (&[("a", "<!--[fragment:c]-->\n<!--[/]-->\n[w](a)\n"), ("c", "# weir_3\n")], &["a"], URL),
    (&[("a", A), ("b", "# B\n# WEIR_3\n"), ("c", "text\n# weir_3\n")], &["a", "b"], URL),
    (&[("a", A), ("b", "# B\n# q1\n"), ("c", "# q_1\n")], &["a", "b"], URL),
    (&[("a", A), ("b", "# B\n# [q](x)_1\n"), ("c", "# q_1\n")], &["a", "b"], URL),
    (&[("a", A), ("b", "# B\n# u\n"), ("c", "# _u_\n")], &["a", "b"], URL),
    (&[("a", A), ("b", "# [Rod](a.md) *q_1*\n[w](b)\n"), ("c", "# rod q1\n")], &["a", "b"], URL),
    (&[("a", A), ("b", "# a_[_b] [a_](x)\n"), ("c", "# q__1 *q*_1\n[w](b)\n")], &["b", "a"], URL),
    (&[("a", WEIR), ("b", "text\n"), ("c", "")], &["a", "b"], URL),
    (&[("a", WEIR), ("b", "# B\n"), ("c", "<!--[fragment:a]-->\n<!--[/]-->\n")], &["a", "b"], URL),
    (&[("a", WEIR), ("b", "# B\n[w](a)\n"), ("c", "text\n")], &["a", "b", "a"], URL),
];

/// The host of a fill, with a title at its end, as the only member, listed twice.
fn of_fill(fill: &Fill) -> Case {
    let mut files = fill.set.own_files();
    files.push((fill.name.clone(), [&fill.text[..], b"\n# T\n"].concat()));
    Case::of(FileSet::of(&files), &[&fill.name, &fill.name], URL.as_bytes())
}

/// The examples of a book.
pub fn of_lists() -> impl Iterator<Item = Case> {
    OF_LISTS.into_iter().map(of_example)
}

/// The examples of a fill as books.
pub fn of_fills() -> impl Iterator<Item = Case> {
    fill_examples().map(|fill| of_fill(&fill))
}

/// Every example: those of a book, of fills and of assemblies.
pub fn examples() -> impl Iterator<Item = Case> {
    of_lists().chain(of_fills()).chain(assembly_examples())
}
