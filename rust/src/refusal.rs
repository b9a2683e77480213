//! Refusals: their numbers, places and sentences.

use core::error::Error;
use core::fmt::{self, Display, Formatter, Write};
use core::ops::RangeInclusive;

/// The sentence of each refusal, that of number 1 first, with `{}` where a name stands.
/// The program `stationbook` prints the same ones.
const SENTENCES: [&str; 19] = [
    "the name is not 1 to 255 printable ASCII bytes, or its index line is ill formed: \
     rename the file",
    "there are more than 64 records: give fewer files",
    "the record's part ends past the contents: mend its start or its length",
    "the name was given before: give each file once",
    "the line holds a byte that is not ASCII: write it in ASCII",
    "the URL, or the name of a host, is not 1 to 255 printable ASCII bytes: mend it",
    "the list has more than 64 lines or its last line has no end: mend the list",
    "the text limit is not 1 to 1,048,576, or a buffer is too short for it: \
     change the limit or lend larger buffers",
    "the region is opened inside a region: close the first one above it",
    "the fragment marker shares its line or is ill spelled: \
     write <!--[fragment:PATH]--> alone on a line",
    "the region is never closed: put <!--[/]--> on a line below it",
    "the region takes in a peer and no heading of the file stands above it: \
     put a heading above, or leave :peer out",
    "the region names {}, which is already on its chain",
    "the line names {}, which is not among the notes: \
     mend the name or give the note",
    "as many files as the allowance has are taken in already: \
     a limit was met, no file needs mending",
    "the heading would be past level 6 where its text stands \
     (lines count the text as it stands there): \
     give it fewer hashes, or take the text in under a higher heading",
    "the text made here is too long for the text limit or the output: \
     a limit was met, no file needs mending",
    "the member has no heading of level 1: give it a title",
    "the heading has the same anchor as {} \
     (lines count the notes as filled, without hand-written contents): \
     change one of the two, or let only one of the notes take it in",
];

/// For a number that has no sentence. No call gives one.
const NO_SENTENCE: &str = "the number is none of 1 to 19";

/// The refusals whose line is one of the index.
const AT_INDEX: RangeInclusive<u64> = 1..=4;

/// The refusal with a second place.
const SHARED_ANCHOR: u64 = 19;

/// A file and a line in it.
///
/// As text it is `file 2, line 12`, without the part that is 0.
#[derive(Clone, Copy, PartialEq, Eq, Hash, Debug, Default)]
pub struct Place {
    /// The number of the file's record, counted from 1; 0 for a text or a host handed
    /// in, for the index and for the member list.
    pub file: usize,
    /// The line, counted from 1; 0 where there is none.
    pub line: usize,
}

/// Why a call gave no text, and where.
///
/// | No. | When | Where |
/// |---|---|---|
/// | 1 | an index line is ill formed | its line, file 0 |
/// | 2 | there are over 64 records | line 65, file 0 |
/// | 3 | a part ends past the contents | its index line, file 0 |
/// | 4 | a name comes twice | the second one's index line, file 0 |
/// | 5 | a byte is 80 hex or above; the host comes first, then the files | its line |
/// | 6 | the host's name or the URL is not 1 to 255 bytes of 20 to 7E hex | 0, 0 |
/// | 7 | the member list lacks its last LF or has over 64 lines | 0, 0 |
/// | 8 | the text limit is not 1 to 1,048,576, or a buffer is short | 0, 0 |
/// | 9 | a region is opened in a region | the marker |
/// | 10 | a fragment marker shares its line or is ill spelled | the marker |
/// | 11 | a region is never closed | its opener |
/// | 12 | a region takes in a peer, and has no own heading above | its opener |
/// | 13 | a region names a file on its chain | its opener |
/// | 14 | a file is not in the index | the opener, or the list's line with file 0 |
/// | 15 | the allowance is used up | the opener |
/// | 16 | a heading would be past level 6 | the file or member, and the line in what is put of it |
/// | 17 | a text is longer than the text limit or, in a scan, than the output | the opener, or line 0 behind the last one; the member, line 0 |
/// | 18 | a member has no heading of level 1 | the member, line 0 |
/// | 19 | an anchor is also in an earlier member of another name | the member, and the line in what is put of it; the earlier one is the second place |
///
/// As text it is the place, what is wrong and what to do, and the number: `file 2, line
/// 12: the region is never closed: put <!--[/]--> on a line below it (refusal 11)`.
/// [`named`](Refusal::named) prints the names of files in place of their numbers.
///
/// At 1 to 4 the place is `index line 2`. At the others a line with file 0 is `line 12`,
/// one of the host or of the member list, or of the text that a scan was given. At 13 and
/// 14 the answer does not tell the name that the line has, so `a file` stands there.
#[derive(Clone, Copy, PartialEq, Eq, Hash, Debug)]
pub struct Refusal {
    number: u64,
    place: Place,
    second: Place,
}

impl Refusal {
    /// By the numbers of an answer behind its first.
    pub(crate) fn of([number, file, line, second_file, second_line]: [u64; 5]) -> Self {
        let place = |file, line| Place { file: file as usize, line: line as usize };
        Refusal { number, place: place(file, line), second: place(second_file, second_line) }
    }

    /// The number, 1 to 19.
    pub fn number(&self) -> u64 {
        self.number
    }

    /// Where it stands.
    pub fn place(&self) -> Place {
        self.place
    }

    /// At 19 where the anchor stands in the earlier member; at all others 0, 0.
    pub fn second(&self) -> Place {
        self.second
    }

    /// What is wrong and what to do, with `{}` where a name stands.
    pub fn sentence(&self) -> &'static str {
        let at = (self.number as usize).wrapping_sub(1);
        SENTENCES.get(at).copied().unwrap_or(NO_SENTENCE)
    }

    /// The refusal with the names of files in place of their numbers. The index is the one
    /// that was handed to the call.
    ///
    /// At 1 to 4 the name is that of the index line: `docs/a.md: the name was given before:
    /// give each file once (refusal 4)`. It stays `index line 2` where that line has no name
    /// of 1 to 255 printable bytes with a tab behind it. Host and member list have no name
    /// here, so a line of theirs stays `line 12`; and at 13 and 14 the words stay `a file`,
    /// as the answer does not tell the name.
    ///
    /// ```
    /// # use jilgyemot::{Answer, FileSet, Members, assemble, work_size};
    /// let files = FileSet { index: b"docs/gauge.md\t0\t9\n", contents: b"## Gauge\n" };
    /// let members = Members { list: b"docs/gauge.md\n", url: b"https://river.example" };
    /// let (mut out, mut work) = ([0; 64], [0; work_size(1, 1, 64)]);
    /// let answer = assemble(files, members, 64, &mut out, &mut work);
    /// let Answer::Refused(refusal) = answer else { panic!("{answer:?}") };
    /// assert_eq!(
    ///     refusal.named(files.index).to_string(),
    ///     "docs/gauge.md: the member has no heading of level 1: give it a title (refusal 18)",
    /// );
    /// ```
    pub fn named<'a>(&self, index: &'a [u8]) -> Named<'a> {
        Named { refusal: *self, index }
    }
}

impl Error for Refusal {}

impl Display for Refusal {
    fn fmt(&self, formatter: &mut Formatter) -> fmt::Result {
        self.named(b"").fmt(formatter)
    }
}

/// A refusal that is printed with the names of files. [`Refusal::named`] makes it.
#[derive(Clone, Copy, Debug)]
pub struct Named<'a> {
    refusal: Refusal,
    index: &'a [u8],
}

impl Named<'_> {
    fn write_first_place(&self, formatter: &mut Formatter) -> fmt::Result {
        let Refusal { number, place, .. } = self.refusal;
        if AT_INDEX.contains(&number) {
            write_index_line(formatter, place.line, self.index)
        } else {
            write_place(formatter, place, self.index)
        }
    }

    /// What stands for `{}`. A refusal does not say which file a region or a list names.
    fn write_name(&self, formatter: &mut Formatter) -> fmt::Result {
        match self.refusal {
            Refusal { number: SHARED_ANCHOR, second, .. } => {
                write_place(formatter, second, self.index)
            }
            _ => formatter.write_str("a file"),
        }
    }
}

impl Display for Named<'_> {
    fn fmt(&self, formatter: &mut Formatter) -> fmt::Result {
        let Refusal { number, place, .. } = self.refusal;
        if place != Place::default() {
            self.write_first_place(formatter)?;
            formatter.write_str(": ")?;
        }
        let sentence = self.refusal.sentence();
        if let Some((before, after)) = sentence.split_once("{}") {
            formatter.write_str(before)?;
            self.write_name(formatter)?;
            formatter.write_str(after)?;
        } else {
            formatter.write_str(sentence)?;
        }
        write!(formatter, " (refusal {number})")
    }
}

impl Display for Place {
    fn fmt(&self, formatter: &mut Formatter) -> fmt::Result {
        match *self {
            Place { file: 0, line: 0 } => Ok(()),
            Place { file: 0, line } => write!(formatter, "line {line}"),
            Place { file, line: 0 } => write!(formatter, "file {file}"),
            Place { file, line } => write!(formatter, "file {file}, line {line}"),
        }
    }
}

/// With the file's name where the index has one.
fn write_place(formatter: &mut Formatter, place: Place, index: &[u8]) -> fmt::Result {
    let Some(name) = name_of(place.file, index) else { return write!(formatter, "{place}") };
    write_ascii(formatter, name)?;
    if place.line == 0 { Ok(()) } else { write!(formatter, ":{}", place.line) }
}

/// A line of the index by its name, where it has one.
fn write_index_line(formatter: &mut Formatter, line: usize, index: &[u8]) -> fmt::Result {
    match name_of(line, index) {
        Some(name) => write_ascii(formatter, name),
        None => write!(formatter, "index line {line}"),
    }
}

fn write_ascii(formatter: &mut Formatter, bytes: &[u8]) -> fmt::Result {
    bytes.iter().try_for_each(|&byte| formatter.write_char(char::from(byte)))
}

/// The name in a line of the index, counted from 1. A refused index may lack it.
fn name_of(line: usize, index: &[u8]) -> Option<&[u8]> {
    let line = index.split(|&byte| byte == b'\n').nth(line.checked_sub(1)?)?;
    let tab = line.iter().position(|&byte| byte == b'\t')?;
    Some(&line[..tab]).filter(|name| is_name(name))
}

fn is_name(bytes: &[u8]) -> bool {
    (1..=255).contains(&bytes.len()) && bytes.iter().all(|byte| (b' '..=b'~').contains(byte))
}
