//! What a call on an index and contents is given.

use crate::{Given, Input, Outcome};

/// A record's name, and the text that it stands for.
pub type File = (String, Vec<u8>);

/// An assembly or a book of a list; the numbers are those behind the limit.
pub fn input_of_list(
    name: &'static str,
    files: &[File],
    list: &[&str],
    limit: usize,
    numbers: &[u64],
    outcome: Outcome,
) -> Input {
    let lines: String = list.iter().map(|name| format!("{name}\n")).collect();
    let rest = [lines.into_bytes(), b"https://h/".to_vec()];
    input(name, files, rest, limit, numbers, files.len() + list.len(), outcome)
}

/// Index and contents of the files, two texts more, the limit and the numbers behind
/// it, and buffers just long enough, where work has to hold so many texts and two more.
pub fn input(
    name: &'static str,
    files: &[File],
    rest: [Vec<u8>; 2],
    limit: usize,
    numbers: &[u64],
    texts: usize,
    outcome: Outcome,
) -> Input {
    let (mut index, mut contents) = (Vec::new(), Vec::new());
    for (name, text) in files {
        index.extend(format!("{name}\t{}\t{}\n", contents.len(), text.len()).bytes());
        contents.extend(text);
    }
    let [third, fourth] = rest;
    let mut given: Vec<Given> = [index, contents, third, fourth].map(Given::Bytes).into();
    given.push(Given::Number(limit as u64));
    given.extend(numbers.iter().copied().map(Given::Number));
    given.extend([limit, (texts + 2) * limit].map(|size| Given::Bytes(vec![0xA5; size])));
    Input { name, given, outcome }
}
