//! Document 01's examples of an assembly, and others for each of its rules.

use super::case::Case;
use crate::answer::Answer;
use crate::walking::set::{FileSet, OwnFile};

/// Names with texts, the list, and the URL.
pub type Example = (&'static [(&'static str, &'static str)], &'static [&'static str], &'static str);

pub const URL: &str = "https://h/";

/// K10 to K12: the six numbers and the text.
pub const CHECKS: [(Example, Answer, &str); 3] = [
    ((&[], &[], URL), [0, 1, 0, 0, 0, 0], "\n"),
    (
        (&[("a", "# T\n"), ("b", "# U\n# V\n")], &["a", "b"], URL),
        [0, 19, 0, 0, 0, 0],
        "# T\n\n---\n\n# U\n## V\n",
    ),
    (
        (&[("docs/a.md", "# T\n[w](../c.md#k)\n")], &["docs/a.md"], URL),
        [0, 36, 0, 0, 0, 0],
        "# T\n[w](https://h/blob/main/c.md#k)\n",
    ),
];

/// Texts of the members `a`, `b` and so on, all of them listed. In this order: 18, the
/// title, contents, blank lines, 19, 16 and the shift, two faults at once, others, and
/// underscores that stay in an anchor or go.
const OF_MEMBERS: [&[&str]; 70] = [
    &["## T\n"],
    &[""],
    &["# T", "", "text"],
    &["#T\n"],
    &[" # T\n"],
    &["```\n# T\n```\n"],
    &["<!--\n# T\n-->\n"],
    &["# Contents\n"],
    &["#  T \t\r\n"],
    &["# \n"],
    &["text\n## S\n# T\n# U\n"],
    &["# T\n## S\n#### R\n"],
    &["# T\n### S\n##### R\n"],
    &["# T\n##  S  \n##\tR\n"],
    &["# T\n## Contents\n- [s](#s)\n\n## S\n"],
    &["# T\n# Table of Contents\n\n## CONTENTS\ntext\n#tag\n"],
    &["# T\n###### contents\ntext\n"],
    &["# T\n####### contents\ntext\n"],
    &["# T\n```\n# Contents\n```\ntext\n# S\n"],
    &["# T\n<!--\n# Contents\n-->\ntext\n####### S\n-->\n# R\n"],
    &["# T\n# Contents\n```\n#tag\n# S\n```\n"],
    &["# T\n# Contents of\n# Contents \r\n# S\n"],
    &["\n \n# T\n\n \t\r\n\n", "\n# U"],
    &["# T\ntext\n# Contents\n\n", "# U\n\n# Contents"],
    &["# T\n", "# T\n"],
    &["# T\n# S\n# S\n", "# U\n\n## *s*\n"],
    &["# T\n# S\n# S\n"],
    &["# T\n\n# [S](x)\n", "# U\n", "# V\n# U\n# S\n"],
    &["# T\n# Contents\n\n# S\n", "# U\n# Contents\n\n\n# R\n# S\n"],
    &["# T\n# !\n", "# U\n## ?\n"],
    &["# T\n```\n# S\n```\n", "# S\n"],
    &["# T\n# Rating & Datum\n", "# rating--datum\n"],
    &["# T\n# Contents\n", "# U\n# Contents\n"],
    &["# T\n# S\n###### R\n"],
    &["# T\n## S\n###### R\n"],
    &["# T\n###### S\n"],
    &["###### S\n# R\n# T\n"],
    &["# T\n# Contents\n\n# S\n\n###### R\n"],
    &["# T\n", "# U\n# S\n###### R\n###### Q\n"],
    &["# T\n", "# T\n", "text\n"],
    &["# T\n# S\n###### R\n", "# T\n"],
    &["# T\n# S\n###### R\n", "text\n"],
    &["# T\n~~~\n```\n# S\n~~~\n# R\n"],
    &["# T\n<!-- a -->\n# S\n<!--\n```\n# R\n```\n# Q\n-->\n# P\n"],
    &["# T\n```\n# S\n[w](b)\n"],
    &["# T\r\n## S\r\n# R\r\ntext\r\n\r\n"],
    &["# T [w](b)\n# [w](a#k) S\n", "# U\n"],
    &["# T\n#include\n####### S\n## R\n"],
    &["# [Rod](a.md) *q_1*\n[w](a)\n", "# U\n[w](a) [w](./b)\n"],
    &["# T\n---\n", "# U\n---\n\n"],
    &["# weir_3\n## S\n", "# U\n[w](a) [w](a#weir3)\n"],
    &["# weir_3\n# weir3\n# WEIR_3\n[w](a)\n"],
    &["# T\n\n# weir_3\n", "# U\n# WEIR_3\n"],
    &["# q_1\n", "# q1\n[w](a) [w](b)\n"],
    &["# q_1\n", "# [q](x)_1\n"],
    &["# q_1\n", "# [q_1](x)\n"],
    &["# _u_\n", "# u\n"],
    &["# q__1\n", "# q_1\n[w](a) [w](b)\n"],
    &["# a_[_b]\n", "# T\n# [a_](x)_b\n"],
    &["# a_[_b]\n", "# a_[](x)_c\n", "# [a_](x)_d\n[w](a) [w](b) [w](c)\n"],
    &["# [a_](x)\n", "# [_]\n", "# ]_1\n[w](a) [w](b) [w](c)\n"],
    &["# a_[_]\n[w](a)\n", "# T\n# [a_](x)\n"],
    &["# *q*_1\n", "# *q_1*\n", "# U\n[w](a) [w](b)\n"],
    &["# q_`1`\n", "# [a]_1\n", "# a_[b\n[w](a) [w](b) [w](c)\n"],
    &["# [a](b_1)_b\n[w](a)\n", "# A_1 [w](a)\n[w](b)\n"],
    &["# T\n```\n# weir_3\n```\n# Contents\nweir_3\n", "# weir_3\n[w](b)\n"],
    &["# weir_3\n", "text\n"],
    &["# weir_3\n# S\n###### r_1\n", "# U\n"],
    &["# weir_3\n# S\n###### R\n", "# U\n# Weir_3\n"],
    &["# weir_3\r\n[w](a)\r\n"],
];

/// Names listed twice, links of all kinds, and URLs.
const OF_LISTS: [Example; 17] = [
    (&[("a", "# T\n[w](a)\n"), ("b", "# U\n[w](a)\n")], &["a", "b", "a"], URL),
    (&[("a", "# T\n# T\n"), ("b", "# U\n")], &["a", "a", "b"], URL),
    (&[("a", "# T\n"), ("b", "# T\n")], &["a", "a", "b"], URL),
    (&[("a", "# T\n"), ("b", "text\n")], &["a"], URL),
    (&[("a", "# T\n[w](b) [w](b#k)\n"), ("b", "# U\n")], &["a"], URL),
    (&[("a", "# T\n"), ("b", "# U\n[w](a) [w](a#k) [w](a#) [w](#k) [w]()\n")], &["b", "a"], URL),
    (
        &[
            ("d/a", "# T\n[w](b)[w](../d/b)[w](/d/b)[w](.//b)[w](../../d/./b#k)\n"),
            ("d/b", "# U\n"),
        ],
        &["d/a", "d/b"],
        URL,
    ),
    (&[("d/a", "# T\n[w](..) [w](../..) [w](/) [w](.#k)\n")], &["d/a"], URL),
    (&[("a", "# T\n[w](https://x/b) [w](mailto:b) [w](x#://y) [w](Mailto:b)\n")], &["a"], URL),
    (&[("a", "# T\n[w](b [w](c)\n[w](b\n[w](c)](d)\n![w](e) ](f)\n")], &["a"], URL),
    (&[("a", "# T\n```\n[w](b)\n```\n[w](b)\n~~~ [w](b)\n")], &["a"], URL),
    (&[("a", "# T\n<!--\n[w](b)\n-->[w](b)\n")], &["a"], URL),
    (&[("a", "# T\n[w](b)\n")], &["a"], "https://h///"),
    (&[("a", "# T\n[w](b)\n")], &["a"], "/"),
    (&[("a", "# T\n[w](b)\n")], &["a"], "h"),
    (&[("/a", "# T\n[w](a) [w](/a)\n"), ("a", "# U\n[w](a)\n")], &["/a", "a"], URL),
    (&[("a", "# weir_3\n# weir_3\n[w](a)\n"), ("b", "# U\n[w](a)\n")], &["a", "b", "a"], URL),
];

/// Index, contents, list and URL that are refused: the table's examples.
const REFUSED: [[&str; 4]; 12] = [
    ["a\t0\n", "", "", URL],
    ["a\t0\t0", "", "", URL],
    ["a\t0\t5\n", "abcd", "", URL],
    ["a\t0\t0\na\t0\t0\n", "", "", URL],
    ["a\t0\t2\n", "\u{e9}", "a\n", URL],
    ["a\t0\t0\n", "", "a\n", ""],
    ["a\t0\t0\n", "", "a\n", "h\n"],
    ["a\t0\t0\n", "", "a", URL],
    ["a\t0\t0\n", "", "a\nzz\n", URL],
    ["a\t0\t0\n", "", "a\n\n", URL],
    ["a\t0\t0\n", "", "a\r\n", URL],
    ["", "", "a\n", URL],
];

pub fn of_example((files, list, url): Example) -> Case {
    let file = |(name, text): &(&str, &str)| (name.bytes().collect(), text.bytes().collect());
    let files: Vec<OwnFile> = files.iter().map(file).collect();
    let list: Vec<&[u8]> = list.iter().map(|name| name.as_bytes()).collect();
    Case::of(FileSet::of(&files), &list, url.as_bytes())
}

fn of_members(texts: &[&str]) -> Case {
    let named = |(at, text): (usize, &&str)| (vec![b'a' + at as u8], text.as_bytes().to_vec());
    let files: Vec<OwnFile> = texts.iter().enumerate().map(named).collect();
    let list: Vec<&[u8]> = files.iter().map(|(name, _)| &name[..]).collect();
    Case::of(FileSet::of(&files), &list, URL.as_bytes())
}

fn refused(parts: [&str; 4]) -> Case {
    let [index, contents, list, url] = parts.map(|part| part.as_bytes().to_vec());
    Case { set: FileSet { index, contents }, list, url }
}

/// 64 lines of the list; 65 of them, and 65 records, which are too many.
fn many() -> [Case; 3] {
    let names: Vec<Vec<u8>> = (0..65).map(|at| at.to_string().into_bytes()).collect();
    let files: Vec<OwnFile> = names.iter().map(|name| (name.clone(), b"# T".to_vec())).collect();
    let records = Case::of(FileSet::of(&files), &[], URL.as_bytes());
    let [most, more] = [64, 65]
        .map(|lines| Case::of(FileSet::of(&files[..1]), &vec![&b"0"[..]; lines], URL.as_bytes()));
    [most, more, records]
}

/// Those that are refused before the walk, and a list of 64 lines.
pub fn before_walk() -> impl Iterator<Item = Case> {
    REFUSED.into_iter().map(refused).chain(many())
}

/// Every example but the checks.
pub fn examples() -> impl Iterator<Item = Case> {
    let members = OF_MEMBERS.into_iter().map(of_members);
    let lists = OF_LISTS.into_iter().map(of_example);
    members.chain(lists).chain(before_walk())
}
