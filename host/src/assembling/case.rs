//! What an assembly is handed, but for limits and buffers.

use crate::answer::Answer;
use crate::refusals::{AMPLE, Input, of_book};
use crate::walking::set::{FileSet, Handed, OwnFile};

/// Index and contents, the member list and the repository's URL.
#[derive(Clone, Default)]
pub struct Case {
    pub set: FileSet,
    pub list: Vec<u8>,
    pub url: Vec<u8>,
}

impl Case {
    pub fn of(set: FileSet, names: &[&[u8]], url: &[u8]) -> Self {
        let list = names.iter().flat_map(|name| [name, &b"\n"[..]].concat()).collect();
        Case { set, list, url: url.to_vec() }
    }

    /// How many lines the list has.
    pub fn lines(&self) -> usize {
        self.list.iter().filter(|&&byte| byte == b'\n').count()
    }

    /// For each line of the list its record, counted from 0, where nothing is refused.
    pub fn members(&self) -> Vec<usize> {
        let files = self.set.files();
        let record = |name: &[u8]| files.iter().position(|(other, _)| *other == name);
        let lines = self.list.split(|&byte| byte == b'\n').take(self.lines());
        lines.map(|name| record(name).expect("the list names records")).collect()
    }
}

impl Handed for Case {
    const LABELS: [&'static str; 4] = ["index", "contents", "list", "URL"];

    fn parts(&self) -> [&[u8]; 4] {
        [&self.set.index, &self.set.contents, &self.list, &self.url]
    }

    fn parts_mut(&mut self) -> [&mut Vec<u8>; 4] {
        [&mut self.set.index, &mut self.set.contents, &mut self.list, &mut self.url]
    }

    fn set(&self) -> &FileSet {
        &self.set
    }

    fn with_files(&self, files: &[OwnFile]) -> Self {
        Case { set: FileSet::of(files), ..self.clone() }
    }

    fn refusal(&self) -> Option<Answer> {
        let [index, contents, list, url] = self.parts();
        let input = Input { index, contents, name: b"", text: b"", list, url, sizes: AMPLE };
        of_book(&input).first().copied()
    }
}
