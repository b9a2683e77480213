//! Compares the leaf functions with the Rust on generated texts, titles, paths,
//! links and regions, and on generated file sets with the refusals of document 01.

mod leaf;

use jilgyemot_host::comparison::{Options, report};
use jilgyemot_host::headed::{Headed, Titles};
use jilgyemot_host::indexed::Inputs;
use jilgyemot_host::linked::{Lines, Paths};
use jilgyemot_host::refusals::Input;
use jilgyemot_host::regions::Marked;
use jilgyemot_host::shrink::shrink;
use jilgyemot_host::spaced::Spaced;
use leaf::checks::Checks;
use leaf::links::Links;
use leaf::regions::Regions;
use leaf::titles::{Anchors, check_neighbours, check_said};
use leaf::{Outcome, levels, lines, members, paths, walk};

fn ascii(text: &[u8]) -> &str {
    str::from_utf8(text).expect("generated texts are ASCII")
}

/// Checks a case, and makes its texts short if something is wrong.
fn checked<const N: usize>(
    names: [&str; N],
    mut texts: [Vec<u8>; N],
    mut check: impl FnMut(&[Vec<u8>; N]) -> Outcome,
) -> Outcome {
    let outcome = check(&texts);
    let Err(mut wrong) = outcome else { return outcome };
    for which in (0..N).chain(0..N) {
        let mut shorter = texts.clone();
        shrink(texts[which].clone(), |text| {
            shorter[which] = text.to_vec();
            let Err(again) = check(&shorter) else { return false };
            wrong = again;
            texts[which] = text.to_vec();
            true
        });
    }
    let texts = names.iter().zip(&texts);
    let shown: String =
        texts.map(|(name, text)| format!("\n{name} {}", text.escape_ascii())).collect();
    Err(format!("{shown}\n{wrong}"))
}

/// The cases of a run, and what they covered.
struct Run {
    headed: Headed,
    titles: Titles,
    title_before: Vec<u8>,
    anchors: Anchors,
    paths: Paths,
    lines: Lines,
    links: Links,
    inputs: Inputs,
    checks: Checks,
    marked: Marked,
    regions: Regions,
    spaced: Spaced,
}

/// How many parts a run has.
const PARTS: usize = 7;

impl Run {
    fn new(seed: u64) -> Self {
        Run {
            headed: Headed::new(seed),
            titles: Titles::new(seed),
            title_before: Vec::new(),
            anchors: Anchors::default(),
            paths: Paths::new(seed),
            lines: Lines::new(seed),
            links: Links::default(),
            inputs: Inputs::new(seed),
            checks: Checks::default(),
            marked: Marked::new(seed),
            regions: Regions::default(),
            spaced: Spaced::new(seed),
        }
    }

    /// The next cases of a part.
    fn next(&mut self, part: usize) -> Outcome {
        match part {
            0 => self.next_text(),
            1 => self.next_title(),
            2 => self.next_path(),
            3 => self.next_line(),
            4 => self.next_input(),
            5 => self.next_marked(),
            _ => self.next_spaced(),
        }
    }

    fn next_text(&mut self) -> Outcome {
        checked(["text"], [self.headed.next()], |[text]| {
            let text = ascii(text);
            Ok(walk::check(text)? + levels::check(text)? + members::check(text)?)
        })
    }

    /// A title by itself, with one that is near, and with the one before it.
    fn next_title(&mut self) -> Outcome {
        let title = self.titles.next();
        let near = self.titles.near(&title);
        let before = std::mem::replace(&mut self.title_before, title.clone());
        let check = |[title]: &[Vec<u8>; 1]| self.anchors.check(ascii(title));
        let mut count = checked(["title"], [title.clone()], check)?;
        for other in [near, before] {
            let check = |[s, t]: &[Vec<u8>; 2]| self.anchors.check_two(ascii(s), ascii(t));
            count += checked(["title", "other"], [title.clone(), other], check)?;
        }
        Ok(count)
    }

    fn next_path(&mut self) -> Outcome {
        checked(["path", "directory"], self.paths.next(), |[path, dir]| {
            paths::check(ascii(path), ascii(dir))
        })
    }

    fn next_line(&mut self) -> Outcome {
        let (line, setting) = self.lines.next();
        checked(["line"], [line], |[line]| self.links.check(ascii(line), &setting))
    }

    fn next_input(&mut self) -> Outcome {
        let names = ["index", "contents", "host's name", "host", "list", "URL"];
        let (texts, sizes) = self.inputs.next();
        checked(names, texts, |[index, contents, name, text, list, url]| {
            self.checks.check(&Input { index, contents, name, text, list, url, sizes })
        })
    }

    fn next_marked(&mut self) -> Outcome {
        let (text, numbers) = self.marked.next();
        checked(["text"], [text], |[text]| self.regions.check(ascii(text), numbers))
    }

    fn next_spaced(&mut self) -> Outcome {
        let (text, at, level) = self.spaced.next();
        checked(["text"], [text], |[text]| lines::check(ascii(text), at, level))
    }

    fn print_covered(&self) {
        println!("all texts of up to {} parts", self.headed.parts.complete());
        println!("all texts of up to {} whole lines", self.headed.lines.complete());
        println!("all titles of up to {} parts", self.titles.parts.complete());
        println!("all paths in directories, up to {} parts together", self.paths.complete());
        println!("all lines of up to {} parts", self.lines.parts.complete());
        println!("all lines of up to {} whole links", self.lines.links.complete());
        println!("all indexes of up to {} parts", self.inputs.parts.complete());
        println!("all indexes of up to {} whole lines", self.inputs.lines.complete());
        println!("all lists of up to {} whole lines", self.inputs.lists.complete());
        println!("all marked texts of up to {} parts", self.marked.texts.parts.complete());
        println!("all marked texts of up to {} whole lines", self.marked.texts.lines.complete());
        println!("all spaced texts of up to {} parts", self.spaced.parts.complete());
        println!("{}", self.anchors);
        println!("{}", self.links);
        println!("{}", self.regions);
        println!("{}", self.checks);
    }
}

/// From so many cases on, anchors must have been held to the Rust and to the model.
const MANY: u64 = 200_000;

/// Each part has about as many cases as the others.
fn run(options: &Options) -> Outcome {
    let more = options.more();
    let mut run = Run::new(options.seed);
    let mut cases = [0; PARTS];
    cases[0] += levels::check_all()?;
    cases[1] += check_said()? + check_neighbours()?;
    cases[6] += lines::check_all()?;
    while more(cases.iter().sum()) {
        let least = (0..PARTS).min_by_key(|&part| cases[part]).unwrap_or(0);
        cases[least] += run.next(least)?;
    }
    run.print_covered();
    let cases = cases.iter().sum();
    if cases >= MANY && !(run.anchors.has_both() && run.links.has_both()) {
        return Err("no anchor was held to the Rust, or none to the model".to_string());
    }
    Ok(cases)
}

fn main() {
    report("compare_leaves", run);
}
