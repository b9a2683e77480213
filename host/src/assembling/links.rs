//! Links of a member.

use crate::linked::random_path;
use crate::random::Random;
use crate::walking::links::{link, path};

/// Whole links, and what breaks one.
const ODD: [&str; 20] = [
    "[w](#k)", "[w](#)", "[w]()", "[w](mailto:a.md#k)", "[w](mailto:)", "[w](Mailto:x)",
    "[w](https://h/a.md#k)", "[w](a.md#x://y)", "[w](:/a)", "[w](a.md", "](", "](a.md\t)",
    "[w](../../../../a.md)", "[w](..)", "[w](/)", "[w](.#k)", "[w](//a.md//#)", "![w](a.md)",
    "[[w](a.md)](a.md#k)", "[w](a.md)(b.md)",
];

const FRAGMENTS: [&str; 6] = ["", "", "#", "#k", "#k#l", "#://"];

/// A link in a member of this name.
pub fn member_link(file: &str, names: &[String], random: &mut Random) -> String {
    let fragment = random.pick(&FRAGMENTS);
    match random.below(8) {
        0 => random.pick(&ODD).to_string(),
        1 => format!("[w]({}{fragment})", random_path(random)),
        2 => format!("[w]({}{fragment})", strange(file, names, random)),
        3 if random.one_in(3) => format!("[w]({}{fragment})", long_path(file, random)),
        _ => link(file, names, random),
    }
}

/// A path near one that resolves to a name.
fn strange(file: &str, names: &[String], random: &mut Random) -> String {
    let to = &names[random.below(names.len())];
    let path = path(file, to, random);
    match random.below(5) {
        0 => format!("{path}x"),
        1 => format!("{path}/"),
        2 => format!("{path}/.."),
        3 => path.to_uppercase(),
        _ => path[..random.below(path.len() + 1)].to_string(),
    }
}

/// A path that, once resolved, is about as long as a name can be.
pub fn long_path(file: &str, random: &mut Random) -> String {
    let dir = file.rfind('/').map_or("", |at| &file[..at]);
    let rooted = dir.is_empty() || random.one_in(2);
    let before = if rooted { 0 } else { dir.len() + 1 };
    let some = random.within(254, 300);
    let length = random.pick(&[254, 255, 255, 256, 257, some]).saturating_sub(before).max(1);
    let mut path = "x".repeat(length);
    for _ in 0..random.below(4) {
        let at = random.below(length);
        path.replace_range(at..at + 1, random.pick(&["x", "/", "y"]));
    }
    // A slash at either end, or two in a row, makes it shorter.
    let noise = random.pick(&["", "", "./", "y/../", ".//./"]);
    let root = if rooted { "/" } else { "" };
    format!("{root}{noise}{path}")
}
