//! What a fill is handed, but for limits and buffers.

use crate::answer::Answer;
use crate::refusals::{AMPLE, Input, of_fill};
use crate::walking::set::{FileSet, Handed, OwnFile};

/// Index and contents, and the host's name and text.
#[derive(Clone, Default)]
pub struct Case {
    pub set: FileSet,
    pub name: Vec<u8>,
    pub text: Vec<u8>,
}

impl Case {
    /// The files one behind the other in the contents, a record for each.
    pub fn of(files: &[OwnFile], name: &[u8], text: &[u8]) -> Self {
        Case { set: FileSet::of(files), name: name.to_vec(), text: text.to_vec() }
    }
}

impl Handed for Case {
    const LABELS: [&'static str; 4] = ["index", "contents", "host", "text"];

    fn parts(&self) -> [&[u8]; 4] {
        [&self.set.index, &self.set.contents, &self.name, &self.text]
    }

    fn parts_mut(&mut self) -> [&mut Vec<u8>; 4] {
        [&mut self.set.index, &mut self.set.contents, &mut self.name, &mut self.text]
    }

    fn set(&self) -> &FileSet {
        &self.set
    }

    fn with_files(&self, files: &[OwnFile]) -> Self {
        Case { set: FileSet::of(files), ..self.clone() }
    }

    fn refusal(&self) -> Option<Answer> {
        let [index, contents, name, text] = self.parts();
        let input = Input { index, contents, name, text, list: b"", url: b"", sizes: AMPLE };
        of_fill(&input).first().copied()
    }
}
