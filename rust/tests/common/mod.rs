//! Calls with buffers of their own, every byte of which is looked at.

// Each test program uses some of these.
#![allow(dead_code)]

use jilgyemot::{Answer, FileSet, Host, Limits, Members, Refusal, assemble, book, fill, work_size};

/// A file's name and text.
pub type File<'a> = (&'a str, &'a str);

/// The text and the files taken in, `None` where there is no region, or the refusal.
pub type Outcome = Result<Option<(String, u64)>, Refusal>;

pub const URL: &[u8] = b"https://river.example";

/// What buffers hold before a call.
const PATTERN: u8 = 0xA5;

/// Index and contents of files that lie one behind the other.
pub fn set_of(files: &[File]) -> (Vec<u8>, Vec<u8>) {
    let (mut index, mut contents) = (String::new(), String::new());
    for (name, text) in files {
        index += &format!("{name}\t{}\t{}\n", contents.len(), text.len());
        contents += text;
    }
    (index.into_bytes(), contents.into_bytes())
}

/// Makes a call with an output and a work buffer of these sizes. Behind an accepted
/// text, and without one, the output has to stay unchanged, and work has to be zero.
pub fn call_in(
    (out_size, work_size): (usize, usize),
    call: impl for<'a> FnOnce(&'a mut [u8], &mut [u8]) -> Answer<'a>,
) -> Outcome {
    let (mut out, mut work) = (vec![PATTERN; out_size], vec![PATTERN; work_size]);
    let outcome = match call(&mut out, &mut work) {
        Answer::Accepted { text, files } => {
            Ok(Some((String::from_utf8(text.to_vec()).expect("a text is ASCII"), files)))
        }
        Answer::NoRegion => Ok(None),
        Answer::Refused(refusal) => Err(refusal),
    };
    let text = outcome.as_ref().ok().and_then(Option::as_ref).map_or("", |(text, _)| text);
    assert!(out.starts_with(text.as_bytes()), "the output begins with the text");
    assert!(out[text.len()..].iter().all(|&byte| byte == PATTERN), "the output's other bytes");
    assert!(work.iter().all(|&byte| byte == 0), "work");
    outcome
}

/// A fill with buffers just large enough.
pub fn fill_of(files: &[File], (name, text): File, limits: Limits) -> Outcome {
    let (index, contents) = set_of(files);
    let set = FileSet { index: &index, contents: &contents };
    let host = Host { name: name.as_bytes(), text: text.as_bytes() };
    let sizes = (limits.text, work_size(files.len(), 0, limits.text));
    call_in(sizes, |out, work| fill(set, host, limits, out, work))
}

/// An assembly of the files that are listed, with buffers just large enough.
pub fn assembly_of(files: &[File], names: &[&str], limit: usize) -> Outcome {
    let ((index, contents), list) = (set_of(files), list_of(names));
    let set = FileSet { index: &index, contents: &contents };
    let members = Members { list: &list, url: URL };
    let sizes = (limit, work_size(files.len(), names.len(), limit));
    call_in(sizes, |out, work| assemble(set, members, limit, out, work))
}

/// A book of the files that are listed, with buffers just large enough.
pub fn book_of(files: &[File], names: &[&str], limits: Limits) -> Outcome {
    let ((index, contents), list) = (set_of(files), list_of(names));
    let set = FileSet { index: &index, contents: &contents };
    let members = Members { list: &list, url: URL };
    let sizes = (limits.text, work_size(files.len(), names.len(), limits.text));
    call_in(sizes, |out, work| book(set, members, limits, out, work))
}

pub fn list_of(names: &[&str]) -> Vec<u8> {
    names.iter().flat_map(|name| format!("{name}\n").into_bytes()).collect()
}
