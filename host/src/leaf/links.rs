//! Links: a line in a file that is taken into a host, and in a member of an
//! assembly, put together from the answers of the leaves.

use std::fmt::{self, Display, Formatter};

use doc_gen::fragment::{self, Files};
use jilgyemot_host::assembling::oracle;
use jilgyemot_host::linked::Setting;
use jilgyemot_host::walking::set::{File, ascii};
use jilgyemot_host::walking::source::{Source, Sources};
use jilgyemot_host::walking::steps::End;

use super::library::{self, Answer};
use super::{Outcome, one, same, walk};

/// How many targets became what, and what the lines of members were held to.
#[derive(Default)]
pub struct Links {
    filled: Targets,
    assembled: Targets,
    sources: Sources,
}

#[derive(Default)]
struct Targets {
    kept: u64,
    fragment: u64,
    title: u64,
    outside: u64,
}

impl Links {
    /// A case each: the links of a line, the line in a file that is taken into
    /// a host, and the line in a member of an assembly.
    pub fn check(&mut self, line: &str, setting: &Setting) -> Outcome {
        // A heading would be moved.
        let line = if line.starts_with('#') { format!("a{line}") } else { line.to_string() };
        let what = |kind| format!("{line:?}, {kind}, {setting:?}");
        let filled = filled(&line, setting, &mut self.filled);
        let assembled = assembled(&line, setting, &mut self.assembled);
        let (expected, source) = expected_assembled(&line, setting)?;
        self.sources.count(source);
        Ok(check_places(&line)?
            + same(&what("filled"), rust_filled(&line, setting)?, filled)?
            + same(&what("assembled"), expected, assembled)?)
    }

    /// Whether lines of members were held to both.
    pub fn has_both(&self) -> bool {
        self.sources.has_both()
    }
}

impl Display for Links {
    fn fmt(&self, f: &mut Formatter) -> fmt::Result {
        let Links { filled, assembled, sources } = self;
        writeln!(f, "targets of a fill: {} kept, {} to a fragment", filled.kept, filled.fragment)?;
        writeln!(
            f,
            "targets of an assembly: {} kept, {} to a fragment, {} to a title, {} outside",
            assembled.kept, assembled.fragment, assembled.title, assembled.outside
        )?;
        write!(f, "lines of members {sources}")
    }
}

/// Every place of a text, and numbers that are none.
fn places(text: &str) -> impl Iterator<Item = u64> + Clone {
    (0..=text.len() as u64 + 1).chain([1 << 32, u64::MAX])
}

fn check_places(line: &str) -> Outcome {
    let expected: Vec<Answer> = places(line).map(|from| first_link(line, from)).collect();
    let leaf = places(line).map(|from| library::link(line.as_bytes(), from)).collect();
    same("the first link from each place on", expected, leaf)
}

fn first_link(line: &str, from: u64) -> Answer {
    let rest = &line[line.len().min(from as usize)..];
    let Some((before, inside)) = rest.split_once("](") else { return one(0) };
    let Some(close) = inside.find(')') else { return one(0) };
    let start = line.len() - rest.len() + before.len() + 2;
    [1, start as u64, (start + close) as u64, 0, 0, 0]
}

/// The one file of a fill.
struct OneFile<'a> {
    name: &'a str,
    text: String,
}

impl Files for OneFile<'_> {
    fn read(&self, path: &str) -> Result<String, String> {
        if path == self.name { Ok(self.text.clone()) } else { Err(format!("no file {path}")) }
    }
}

/// Words stand around the line, so that it may be blank.
fn rust_filled(line: &str, setting: &Setting) -> Result<String, String> {
    let files = OneFile { name: setting.file, text: format!("a\n{line}\nz") };
    let host = format!("<!--[fragment:{}]-->\n<!--[/]-->", setting.file);
    let filled = fragment::fill(setting.host, &host, &files)?.unwrap_or_default();
    nth_line(&filled, 2)
}

fn nth_line(text: &str, index: usize) -> Result<String, String> {
    let line = text.split('\n').nth(index);
    line.map(str::to_string).ok_or_else(|| format!("no line {index} in {text:?}"))
}

fn filled(line: &str, setting: &Setting, targets: &mut Targets) -> String {
    let dir = parent(setting.file);
    relinked(line, |target| {
        match library::self_anchor(target.as_bytes(), dir.as_bytes(), setting.host.as_bytes()) {
            [0, 0, 0, 0, 0, 0] => {
                targets.kept += 1;
                target.to_string()
            }
            [from, 0, 0, 0, 0, 0] => {
                targets.fragment += 1;
                part(target, from, target.len() as u64).to_string()
            }
            answer => format!("{answer:?}"),
        }
    })
}

/// From the Rust, or from the model where underscores stay in a title's anchor.
fn expected_assembled(line: &str, setting: &Setting) -> Result<(String, Source), String> {
    let text = |(at, (_, title)): (usize, &(&str, String))| match at == setting.holder {
        true => format!("# {title}\n{line}\nz"),
        false => format!("# {title}"),
    };
    let texts: Vec<String> = setting.members.iter().enumerate().map(text).collect();
    let names = setting.members.iter().map(|(name, _)| name.as_bytes());
    let files: Vec<File> = names.zip(texts.iter().map(|text| text.as_bytes())).collect();
    let members: Vec<usize> = (0..files.len()).collect();
    match oracle::assembled(&files, &members, setting.url.as_bytes())? {
        // A title before it stands with a rule between empty lines.
        (End::Text(text), source) => Ok((nth_line(ascii(&text), 4 * setting.holder + 1)?, source)),
        _ => Err("the members are not assembled".to_string()),
    }
}

fn assembled(line: &str, setting: &Setting, targets: &mut Targets) -> String {
    let dir = parent(setting.members[setting.holder].0);
    relinked(line, |target| match library::target(target.as_bytes()) {
        [0, 0, 0, 0, 0, 0] => {
            targets.kept += 1;
            target.to_string()
        }
        [1, end, 0, 0, 0, 0] => rewritten(target, end, dir, setting, targets),
        answer => format!("{answer:?}"),
    })
}

fn rewritten(
    target: &str,
    path_end: u64,
    dir: &str,
    setting: &Setting,
    targets: &mut Targets,
) -> String {
    let path = part(target, 0, path_end).as_bytes();
    let resolves = |name: &str| library::resolves(path, dir.as_bytes(), name.as_bytes()) == one(1);
    // The later of two members of a name serves.
    let title = setting.members.iter().rfind(|(name, _)| resolves(name)).map(|(_, title)| title);
    let length = target.len() as u64;
    let fragment = part(target, path_end, length);
    match title {
        Some(title) if fragment.is_empty() => {
            targets.title += 1;
            format!("#{}", anchor(title))
        }
        Some(_) => {
            targets.fragment += 1;
            fragment.to_string()
        }
        None => {
            targets.outside += 1;
            let url = part(setting.url, 0, library::url(setting.url.as_bytes())[0]);
            let path = resolved(part(target, 0, path_end), dir);
            format!("{url}/blob/main/{path}{fragment}")
        }
    }
}

/// A line with what its targets become, as the leaves find its links.
fn relinked(line: &str, mut becomes: impl FnMut(&str) -> String) -> String {
    let mut out = String::new();
    let mut from = 0;
    loop {
        match library::link(line.as_bytes(), from) {
            [1, start, end, 0, 0, 0] if from < start && start <= end => {
                out.push_str(part(line, from, start));
                out.push_str(&becomes(part(line, start, end)));
                from = end;
            }
            [0, 0, 0, 0, 0, 0] => {
                out.push_str(part(line, from, line.len() as u64));
                return out;
            }
            answer => return format!("{answer:?}"),
        }
    }
}

fn part(text: &str, start: u64, end: u64) -> &str {
    text.get(start as usize..end as usize).unwrap_or("no part of the text")
}

fn parent(name: &str) -> &str {
    part(name, 0, library::parent(name.as_bytes())[0])
}

fn resolved(path: &str, dir: &str) -> String {
    let mut out = vec![0; path.len() + dir.len() + 1];
    let answer = library::resolve(path.as_bytes(), dir.as_bytes(), &mut out);
    part(&String::from_utf8_lossy(&out), 0, answer[0]).to_string()
}

fn anchor(title: &str) -> String {
    let (found, _) = walk::headings(&[format!("# {title}")]);
    let text = found.first().map_or("", |(_, _, text)| text);
    let mut out = vec![0; text.len()];
    let answer = library::anchor(text.as_bytes(), &mut out);
    part(&String::from_utf8_lossy(&out), 0, answer[0]).to_string()
}
