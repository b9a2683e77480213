//! Names of files, and links of a file, many of them to a name of its case.

use crate::random::Random;

/// A name with the file's number in it.
pub fn name(at: usize, random: &mut Random) -> String {
    match random.below(16) {
        0..=3 => format!("docs/{at}.md"),
        4..=5 => format!("docs/b/{at}.md"),
        6 if at < 26 => char::from(b'a' + at as u8).to_string(),
        7 if random.one_in(8) => format!("{at:x>255}"),
        8 => format!(" {at} "),
        9 if random.one_in(8) => format!("{at}:peer"),
        10 => random.pick(&["/", "docs//", "../", "./"]).to_string() + &at.to_string(),
        _ => format!("{at}.md"),
    }
}

/// What a link's fragment can be; half the links have none or an empty one.
const FRAGMENTS: [&str; 8] = ["", "", "", "#", "#k", "#k", "#k#l", "#a(b"];

const ODD: [&str; 12] = [
    "[w](#k)", "[w]()", "[w](mailto:host.md#k)", "[w](http://host.md#k)", "[w](a://b#c)",
    "[w](host.md#k", "](", "[w]( host.md#k)", "[w](..#k)", "![w](./a.md#k)", "[w](/#k)", ")",
];

/// A link in a file of this name.
pub fn link(file: &str, names: &[String], random: &mut Random) -> String {
    if random.one_in(5) {
        return random.pick(&ODD).to_string();
    }
    let to = &names[random.below(names.len())];
    format!("[w]({}{})", path(file, to, random), random.pick(&FRAGMENTS))
}

/// A path that resolves to a name, if that name has no part that goes.
pub fn path(file: &str, to: &str, random: &mut Random) -> String {
    let dir = file.rfind('/').map_or("", |at| &file[..at]);
    let depth = dir.split('/').filter(|part| !part.is_empty()).count();
    let beside = to.strip_prefix(dir).and_then(|rest| rest.strip_prefix('/'));
    match random.below(6) {
        0 => format!("/{to}"),
        1 => format!("/.//x/../{to}"),
        2 => format!("{}/{to}", "../".repeat(depth + 2)),
        3 => to.to_string(),
        _ => match beside {
            Some(name) if random.one_in(2) => name.to_string(),
            Some(name) => format!("./{name}"),
            None => format!("{}{to}", "../".repeat(depth)),
        },
    }
}
