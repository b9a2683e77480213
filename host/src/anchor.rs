//! Anchors as they have to be: as the Rust gives them, and as the model does where a run
//! of underscores stays.

use doc_gen::assembly::{self, Member};

use crate::walking::naming::anchor as model_anchor;
use crate::walking::reading::trimmed;
use crate::walking::source::Source;

/// A title that no generated text and no stored case has the anchor of.
pub const FIRST: &str = "# q8q8q8";

/// Titles with underscores, and the anchors that Req 01 gives them; document 01's K4
/// comes last.
pub const SAID: [(&str, &str); 29] = [
    ("weir_3", "weir_3"),
    ("WEIR__3 a_b_c", "weir__3-a_b_c"),
    ("_u_", "u"),
    ("a_", "a"),
    ("_", ""),
    ("a _b", "a-b"),
    ("a_ b", "a-b"),
    ("a_-b", "a-b"),
    ("[a_](x)", "a_"),
    ("[_]", "_"),
    ("a_[_b]", "a__b"),
    ("[a_](x)_b", "a__b"),
    ("a_[](x)_b", "a__b"),
    ("a_[_]", "a_"),
    ("*q*_1", "q1"),
    ("*q_1*", "q_1"),
    ("q_`1`", "q1"),
    ("`q_1`", "q_1"),
    ("[a]_1", "a_1"),
    ("[a](x_1)_b", "a_b"),
    ("a_[b", "a_b"),
    ("0_9", "0_9"),
    ("A_z", "a_z"),
    ("a_Z", "a_z"),
    ("/_1", "1"),
    ("1_:", "1"),
    ("@_a", "a"),
    ("a_{", "a"),
    ("[Rod](a.md) *q_1*", "rod-q_1"),
];

/// Two members, assembled.
pub fn assemble(first: String, second: String) -> Result<String, String> {
    let member = |path: &str, text| Member { path: path.to_string(), text };
    assembly::assemble(&[member("a.md", first), member("b.md", second)], "r")
}

/// The anchor of a title, and where it comes from. The Rust's has all of it but
/// underscores, and all of it where none stays.
pub fn anchor(title: &str) -> Result<(String, Source), String> {
    let text = trimmed(title.as_bytes());
    let (rust, source) = (rust_anchor(title)?, Source::of([text].into_iter()));
    let model = String::from_utf8(model_anchor(text)).expect("titles are ASCII");
    let agreed = match source {
        Source::Model => model.replace('_', "") == rust.replace('_', ""),
        _ => model == rust,
    };
    if agreed { Ok((model, source)) } else { Err(format!("model {model}\nRust  {rust}")) }
}

/// The Rust's `slug` is private, but a link to a member becomes a link to the anchor of
/// that member's title. A heading of hand-written contents is dropped, and its member has
/// no title then. With a `*` behind it, it stays, and `slug` drops the `*`: no bracket
/// stands before it.
fn rust_anchor(title: &str) -> Result<String, String> {
    match linked(title) {
        Err(refusal) if refusal.contains(": no leading H1") => linked(&format!("{title}*")),
        other => other,
    }
}

fn linked(title: &str) -> Result<String, String> {
    let text = assemble(format!("{FIRST}\n[x](b.md)"), format!("# {title}"))?;
    let link = text.lines().nth(1).and_then(|line| line.strip_prefix("[x](#")?.strip_suffix(')'));
    Ok(link.ok_or_else(|| format!("no link in {text:?}"))?.to_string())
}
