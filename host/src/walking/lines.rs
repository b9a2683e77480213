//! Lines that texts are made of.

use crate::random::Random;

pub const PLAIN: [&str; 14] = [
    "text", "a line of words", "x", "#include", "####### seven", "#", " # none", "`code`", "-",
    "<!-- a --> b", "<!--[k]-->v<!--[/]-->", "a\rb", "#\tnone", "\\# x",
];

pub const BLANK: [&str; 8] = ["", "", "", " ", "\t", "\x0b \x0c", "\r", "  \t "];

/// Behind a heading's hashes and space.
pub const TITLES: [&str; 10] =
    ["A", "B ", " C\t", "", " ", "D #", "[w](host.md#k)", "\tE\x0b", "<!-- F -->", "```"];

/// What nothing closes, and what closes nothing. The first two open a fence for
/// headings and none for the scan.
pub const TORN: [&str; 16] = [
    "```\n~~~", "~~~\n```", "```", "~~~", " ```x", "\t~~~", "````", "<!-- open", " <!--", "<!-->",
    "-->", "close -->", "<!--[/]-->", " <!--[/]-->\t", "<!--[k", "~~",
];

/// Lines that are quoted, skipped or no markers, as they come together.
pub const BLOCKS: [&[&str]; 12] = [
    &["```", "# quoted", "```"],
    &["~~~", "```", "# quoted", "~~~"],
    &["```", "~~~", "# quoted", "```"],
    &["<!--", "# skipped", "-->"],
    &["<!-- a", "-->", "# F"],
    &["<!--", "# skipped -->", "text"],
    &["<!--", "~~~", "-->", "~~~", "# skipped", "-->"],
    &["```", "<!--[/]-->", "```"],
    &["~~~", "<!--[fragment:a]-->", "~~~"],
    &["  ```c", "#define", "\t```"],
    &["```", "[w](/host.md#k)", "[w](/docs/host.md#k)", "```"],
    &["[w](/host.md#k", "l) [w](/h#k)"],
];

/// The lines with one kind of ends, or mixed ones; the last may lack its own.
pub fn joined(lines: &[String], random: &mut Random) -> Vec<u8> {
    let kind = random.pick(&["\n", "\n", "\n", "\n", "\n", "\n", "\r\n", ""]);
    let mut text = String::new();
    for (at, line) in lines.iter().enumerate() {
        text.push_str(line);
        if at + 1 < lines.len() || random.one_in(2) {
            let mixed = kind.is_empty();
            text.push_str(if mixed { random.pick(&["\n", "\r\n", "\r\r\n"]) } else { kind });
        }
    }
    text.into_bytes()
}

/// A few of these lines, the last without an end.
pub fn few(lines: &[&str], random: &mut Random) -> Vec<u8> {
    let lines: Vec<&str> = (0..random.below(7)).map(|_| random.pick(lines)).collect();
    lines.join("\n").into_bytes()
}

/// Now and then a few blank lines.
pub fn blank_lines(lines: &mut Vec<String>, random: &mut Random) {
    if random.one_in(4) {
        for _ in 0..random.within(1, 3) {
            lines.push(random.pick(&BLANK).to_string());
        }
        // Alone longer than many texts that the file goes into.
        if random.one_in(6) {
            lines.push(" ".repeat(random.within(100, 400)));
        }
    }
}
