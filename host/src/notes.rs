//! Long texts: notes like those a station keeps, and lines made to be slow.

use crate::random::Random;

const WORDS: [&str; 24] = [
    "the", "gauge", "reads", "water", "level", "at", "weir", "after", "rain", "staff", "checked",
    "a", "datum", "of", "benchmark", "and", "pump", "limit", "was", "raised", "to", "outflow",
    "by", "morning",
];

/// Notes of exactly `size` bytes: sections of a heading, paragraphs and lists,
/// with a marked span every dozen lines or so, some regions and some fences.
pub fn notes(size: usize, random: &mut Random) -> Vec<u8> {
    let mut text = String::with_capacity(size);
    loop {
        let block = section(random);
        if text.len() + block.len() >= size {
            break;
        }
        text.push_str(&block);
    }
    let rest = size - text.len();
    plain_lines(rest, &mut text);
    text.into_bytes()
}

/// A marked span in each line.
pub fn marker_in_each_line(size: usize) -> Vec<u8> {
    let mut text = String::with_capacity(size);
    let line = "The limit of this pump is <!--[const:PUMP_LIMIT:metres]-->6 m<!--[/]--> by day.\n";
    while text.len() + line.len() < size {
        text.push_str(line);
    }
    let rest = size - text.len();
    plain_lines(rest, &mut text);
    text.into_bytes()
}

/// One line without a line feed, its only marker (`end`, maybe none) at its end.
pub fn long_line(size: usize, end: &str) -> Vec<u8> {
    let mut text = String::with_capacity(size);
    while text.len() < size - end.len() {
        text.push_str("the staff gauge - read at <8 h> - is [dry] again! ");
    }
    text.truncate(size - end.len());
    text.push_str(end);
    text.into_bytes()
}

/// `size` bytes of plain lines of 80 bytes.
fn plain_lines(size: usize, text: &mut String) {
    for at in 1..=size {
        text.push(if at % 80 == 0 || at == size { '\n' } else { '.' });
    }
}

fn section(random: &mut Random) -> String {
    let mut out = format!("{} ", "#".repeat(random.within(1, 4)));
    sentence(3, random, &mut out);
    out.push_str("\n\n");
    for _ in 0..random.within(1, 4) {
        match random.below(12) {
            0 => fence(random, &mut out),
            1 => region(random, &mut out),
            2..=4 => list(random, &mut out),
            _ => paragraph(random, &mut out),
        }
        out.push('\n');
    }
    out
}

fn paragraph(random: &mut Random, out: &mut String) {
    for _ in 0..random.within(2, 6) {
        sentence(6, random, out);
        if random.one_in(8) {
            out.push_str(" <!--[const:MAX_HOLD:seconds]-->60 seconds<!--[/]--> ");
        } else {
            out.push_str(", ");
        }
        sentence(6, random, out);
        out.push_str(".\n");
    }
}

fn list(random: &mut Random, out: &mut String) {
    for _ in 0..random.within(2, 5) {
        out.push_str("- ");
        sentence(9, random, out);
        out.push('\n');
    }
}

fn fence(random: &mut Random, out: &mut String) {
    let marks = random.pick(&["```", "~~~"]);
    out.push_str(marks);
    out.push_str("text\n");
    for _ in 0..random.within(2, 6) {
        out.push_str("    $ level --station ");
        sentence(4, random, out);
        out.push('\n');
    }
    out.push_str(marks);
    out.push('\n');
}

fn region(random: &mut Random, out: &mut String) {
    let peer = random.pick(&["", ":peer"]);
    out.push_str(&format!("<!--[fragment:docs/fragments/steps.md{peer}]-->\n"));
    paragraph(random, out);
    out.push_str("<!--[/]-->\n");
}

fn sentence(words: usize, random: &mut Random, out: &mut String) {
    for word in 0..words {
        if word > 0 {
            out.push(' ');
        }
        out.push_str(random.pick(&WORDS));
    }
}
