//! Index and contents, and what else a call with a walk is handed.

use crate::answer::Answer;
use crate::indexed::{bad_line, damage};
use crate::random::Random;
use crate::refusals::records;

/// What a call is handed, but for limits and buffers.
pub trait Handed: Clone {
    /// What the four parts are called.
    const LABELS: [&'static str; 4];

    /// Index, contents, and two texts more.
    fn parts(&self) -> [&[u8]; 4];

    fn parts_mut(&mut self) -> [&mut Vec<u8>; 4];

    fn set(&self) -> &FileSet;

    /// The same with other files.
    fn with_files(&self, files: &[OwnFile]) -> Self;

    /// The first refusal of 1 to 7, or 14 on the list, if there is one.
    fn refusal(&self) -> Option<Answer>;
}

#[derive(Clone, Default)]
pub struct FileSet {
    pub index: Vec<u8>,
    pub contents: Vec<u8>,
}

/// A record's name, and the text that it stands for.
pub type File<'a> = (&'a [u8], &'a [u8]);

/// The same, not in a set.
pub type OwnFile = (Vec<u8>, Vec<u8>);

/// A text that goes into a walk.
pub fn ascii(text: &[u8]) -> &str {
    str::from_utf8(text).expect("wide bytes are refused before the walk")
}

impl FileSet {
    /// The files one behind the other in the contents, a record for each.
    pub fn of(files: &[OwnFile]) -> Self {
        let mut set = FileSet::default();
        for (name, text) in files {
            let start = set.contents.len();
            set.contents.extend(text);
            set.add_record(name, start, text.len());
        }
        set
    }

    pub fn add_record(&mut self, name: &[u8], start: usize, length: usize) {
        self.index.extend(name);
        self.index.extend(format!("\t{start}\t{length}\n").bytes());
    }

    /// The files of a set that is not refused by 1 to 4.
    pub fn files(&self) -> Vec<File<'_>> {
        let text = |start: usize, length: usize| &self.contents[start..start + length];
        let records = records(&self.index);
        records.iter().map(|record| (record.name, text(record.start, record.length))).collect()
    }

    /// The same, to be changed.
    pub fn own_files(&self) -> Vec<OwnFile> {
        self.files().iter().map(|(name, text)| (name.to_vec(), text.to_vec())).collect()
    }

    /// Mostly one file behind the other; else with bytes of no file between them, in
    /// another order, and now and then with a part that lies in others.
    pub fn laid_out(files: &[OwnFile], random: &mut Random) -> Self {
        if !random.one_in(4) {
            return FileSet::of(files);
        }
        let mut set = FileSet::default();
        let mut parts = vec![(0, 0); files.len()];
        let first = random.below(files.len().max(1));
        for at in (0..files.len()).map(|at| (at + first) % files.len()) {
            set.contents.extend(random.pick(&[&b""[..], b"\xff", b"\n", b"<!--[", b"# \x80"]));
            parts[at] = (set.contents.len(), files[at].1.len());
            set.contents.extend(&files[at].1);
        }
        if random.one_in(8) && !parts.is_empty() {
            let other = parts[random.below(parts.len())];
            let cut = random.below(other.1 + 1);
            let at = random.below(parts.len());
            parts[at] = (other.0 + cut, random.below(other.1 - cut + 1));
        }
        for ((name, _), (start, length)) in files.iter().zip(parts) {
            set.add_record(name, start, length);
        }
        set
    }

    /// Puts a fault of 1 to 5 in, one of six kinds; the index is not empty for the
    /// kind 0.
    pub fn spoil(&mut self, kind: usize, random: &mut Random) {
        match kind {
            0 => damage(&mut self.index, random),
            1 => {
                self.index.extend(bad_line(b"bad".to_vec(), random));
                self.index.push(b'\n');
            }
            2 => {
                let more = random.within(63, 66);
                (0..more).for_each(|at| self.add_record(format!("{at}+").as_bytes(), 0, 0));
            }
            3 => self.add_record(b"past", self.contents.len(), 1),
            4 => self.index.extend(self.index.clone()),
            _ => {
                let wide = random.pick(&[&b"\n\x80"[..], b"\xff"]);
                self.add_record(b"wide", self.contents.len(), wide.len());
                self.contents.extend(wide);
            }
        }
    }
}
