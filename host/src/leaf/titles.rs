//! Anchors: of a title, through a link to its member, and of two headings,
//! through the check that no two members share one. Where a run of underscores stays,
//! both come from the model.

use std::fmt::{self, Display, Formatter};

use doc_gen::assembly;
use jilgyemot_host::anchor::{FIRST, SAID, anchor, assemble};
use jilgyemot_host::walking::naming;
use jilgyemot_host::walking::source::{Source, Sources};

use super::{Outcome, library, one, same, same_bytes};

/// A title that, like `FIRST`, no generated text has the anchor of.
const SECOND: &str = "# z9z9z9";

/// What titles and pairs of them were held to.
#[derive(Default)]
pub struct Anchors {
    titles: Sources,
    pairs: Sources,
}

impl Anchors {
    pub fn check(&mut self, title: &str) -> Outcome {
        let (anchor, source) = anchor(title)?;
        self.titles.count(source);
        check_anchor(title, &anchor)
    }

    /// Two headings in two members, where they share an anchor or not. The Rust
    /// does not compare headings that it drops.
    pub fn check_two(&mut self, s: &str, t: &str) -> Outcome {
        if is_dropped(s) || is_dropped(t) {
            return Ok(0);
        }
        let texts = [s, t].map(heading_text);
        let [a, b] = [&texts[0], &texts[1]].map(|text| text.as_bytes());
        let source = Source::of([a, b].into_iter());
        self.pairs.count(source);
        let shared = match source {
            Source::Model => naming::anchor(a) == naming::anchor(b),
            _ => rust_shares(s, t)?,
        };
        same("a shared anchor", one(u64::from(shared)), library::same_anchor(a, b))
    }

    /// Whether titles and pairs were held to both.
    pub fn has_both(&self) -> bool {
        self.titles.has_both() && self.pairs.has_both()
    }
}

impl Display for Anchors {
    fn fmt(&self, f: &mut Formatter) -> fmt::Result {
        write!(f, "titles {}\npairs of titles {}", self.titles, self.pairs)
    }
}

/// Titles that Req 01 gives the anchors of.
pub fn check_said() -> Outcome {
    let mut count = 0;
    for (title, said) in SAID {
        let (model, _) = anchor(title)?;
        count += same(&format!("the model's anchor of {title}"), said, &model)?;
        let checked = check_anchor(title, said);
        count += checked.map_err(|wrong| format!("title {title}\n{wrong}"))?;
    }
    Ok(count)
}

/// Every byte that a line may have on each side of an underscore.
pub fn check_neighbours() -> Outcome {
    let mut count = 0;
    for before in (0..0x80).filter(|&byte| byte != b'\n') {
        for after in (0..0x80).filter(|&byte| byte != b'\n') {
            let title = String::from_iter([before, b'_', after].map(char::from));
            let checked = anchor(&title).and_then(|(anchor, _)| check_anchor(&title, &anchor));
            count += checked.map_err(|wrong| format!("title {title:?}\n{wrong}"))?;
        }
    }
    Ok(count)
}

/// The text of a title's heading.
fn heading_text(title: &str) -> String {
    let (found, _) = assembly::headings(&[format!("# {title}")]);
    found.into_iter().next().expect("a hash and a space begin a heading").text
}

/// Whether a title is one of hand-written contents, by document 01 and not by
/// the leaf, so that a leaf that is wrong hides no case.
fn is_dropped(title: &str) -> bool {
    let space = |byte: char| matches!(byte, '\t'..='\r' | ' ');
    let title = title.trim_matches(space).to_ascii_lowercase();
    title == "contents" || title == "table of contents"
}

/// The leaf's anchor of a title at four sizes of the output.
fn check_anchor(title: &str, anchor: &str) -> Outcome {
    let text = heading_text(title);
    let mut count = 0;
    for size in [anchor.len() + 3, anchor.len(), anchor.len() / 2, 0] {
        let pattern = 0xA5;
        let mut out = vec![pattern; size];
        let answer = library::anchor(text.as_bytes(), &mut out);
        let room = size.min(anchor.len());
        let expected = [&anchor.as_bytes()[..room], &vec![pattern; size - room]].concat();
        count += same("the anchor's length", one(anchor.len() as u64), answer)?;
        count += same_bytes("the anchor", &expected, &out)?;
    }
    Ok(count)
}

fn rust_shares(s: &str, t: &str) -> Result<bool, String> {
    match assemble(format!("{FIRST}\n# {s}"), format!("{SECOND}\n# {t}")) {
        Ok(_) => Ok(false),
        Err(refusal) if refusal.contains("' is a heading in both a.md:2 and b.md:2.") => Ok(true),
        Err(refusal) => Err(refusal),
    }
}
