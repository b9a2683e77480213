//! Calls of the verified library Jilgyemot, which writes a river station's book out of
//! markdown notes.
//!
//! | Call | What it does |
//! |---|---|
//! | [`scan`] | lists the values and regions that a text marks, and what is wrong with its markers |
//! | [`fill`] | puts the files that a host's regions name into it, their headings moved to fit |
//! | [`assemble`] | joins the files of a list into one text, with their levels and links corrected |
//! | [`book`] | fills the files of a list and then assembles them |
//!
//! A call takes any bytes. It gives a text or a [`Refusal`] with number and place, and
//! nothing else: that is proved of the library. It writes into buffers that the caller
//! lends, allocates nothing and keeps nothing. The package needs neither `std` nor
//! `alloc`.
//!
//! # Files
//!
//! Files are handed in as a [`FileSet`]: their bytes in one buffer, the contents, and an
//! index that says where each file lies in it.
//!
//! # Buffers
//!
//! The output has at least as many bytes as the text limit, and work has at least
//! [`work_size`]; else the answer is refusal 8. An accepted text is the output's first
//! bytes. All other bytes of the output are left unchanged, and so is the whole output
//! where the answer is another. Work may hold anything, and is zero after every call.
//!
//! # Example
//!
//! ```
//! use jilgyemot::{Answer, FileSet, Limits, Members, book, work_size};
//!
//! const LIMIT: usize = 256;
//!
//! let files = FileSet {
//!     index: b"docs/gauge.md\t0\t52\ndocs/crews.md\t52\t15\n",
//!     contents: b"# Gauge\n\n<!--[fragment:docs/crews.md]-->\n<!--[/]-->\n\
//!         Two at a time.\n",
//! };
//! let members = Members { list: b"docs/gauge.md\n", url: b"https://river.example" };
//! let limits = Limits { text: LIMIT, files: 10 };
//! let mut out = [0; LIMIT];
//! let mut work = [0; work_size(2, 1, LIMIT)];
//!
//! match book(files, members, limits, &mut out, &mut work) {
//!     Answer::Accepted { text, files } => {
//!         let book = "# Gauge\n\n<!--[fragment:docs/crews.md]-->\n\
//!             Two at a time.\n<!--[/]-->\n";
//!         assert_eq!((text, files), (book.as_bytes(), 1));
//!     }
//!     Answer::NoRegion => unreachable!("only a fill answers so"),
//!     Answer::Refused(refusal) => panic!("{}", refusal.named(files.index)),
//! }
//! ```

#![no_std]
#![deny(unsafe_code)]
#![warn(missing_docs)]

#[cfg(not(all(target_arch = "x86_64", target_os = "linux")))]
compile_error!("jilgyemot is a library for x86-64 Linux: build for x86_64-unknown-linux-gnu");

#[allow(unsafe_code)]
pub mod c;
mod refusal;

use c::Numbers;
pub use refusal::{Named, Place, Refusal};

/// What a call answers.
#[must_use]
#[derive(Clone, Copy, PartialEq, Eq, Debug)]
pub enum Answer<'a> {
    /// The text, which the output begins with, and how often a file was taken in: 0 in a
    /// scan and in an assembly.
    Accepted {
        /// The text or listing.
        text: &'a [u8],
        /// A file counts each time that a region takes it in.
        files: u64,
    },
    /// The host has no region and no fragment problem, and stays as it is. Only a fill
    /// answers so.
    NoRegion,
    /// There is no text.
    Refused(Refusal),
}

impl<'a> Answer<'a> {
    /// The answer that six numbers of [`c`] are, with the output as the call left it.
    ///
    /// # Panics
    ///
    /// Where the numbers are of a text that is longer than the output.
    pub fn from_numbers(numbers: Numbers, out: &'a [u8]) -> Self {
        match numbers {
            [0, length, files, ..] => Answer::Accepted { text: &out[..length as usize], files },
            [1, ..] => Answer::NoRegion,
            [_, refusal @ ..] => Answer::Refused(Refusal::of(refusal)),
        }
    }

    /// The text, `None` where there is no region, or the refusal as an error.
    ///
    /// ```
    /// # use jilgyemot::{FileSet, Host, Limits, Refusal, fill, work_size};
    /// # fn main() -> Result<(), Refusal> {
    /// # let (mut out, mut work) = ([0; 64], [0; work_size(0, 0, 64)]);
    /// # let files = FileSet { index: b"", contents: b"" };
    /// let host = Host { name: b"host.md", text: b"# Gauge\n" };
    /// let answer = fill(files, host, Limits { text: 64, files: 9 }, &mut out, &mut work);
    /// let text = answer.text()?.unwrap_or(host.text);
    /// assert_eq!(text, b"# Gauge\n");
    /// # Ok(())
    /// # }
    /// ```
    pub fn text(self) -> Result<Option<&'a [u8]>, Refusal> {
        match self {
            Answer::Accepted { text, .. } => Ok(Some(text)),
            Answer::NoRegion => Ok(None),
            Answer::Refused(refusal) => Err(refusal),
        }
    }
}

/// The files that a call may read.
///
/// The index has a line for each file, with LF behind it: name, start and length, parted
/// by one tab. The file is that part of the contents; parts may overlap. A name has 1 to
/// 255 bytes of 20 to 7E hex. Start and length are decimal, with 1 to 9 digits and no
/// needless zero in front. There are 0 to 64 files, each name once.
#[derive(Clone, Copy, PartialEq, Eq, Debug)]
pub struct FileSet<'a> {
    /// A line for each file.
    pub index: &'a [u8],
    /// The bytes of all files.
    pub contents: &'a [u8],
}

/// The host of a fill.
#[derive(Clone, Copy, PartialEq, Eq, Debug)]
pub struct Host<'a> {
    /// 1 to 255 bytes of 20 to 7E hex. Links are read as those of a file of this name,
    /// and no file may take it in. It need not be in the index.
    pub name: &'a [u8],
    /// The text with the regions.
    pub text: &'a [u8],
}

/// The members of an assembly or a book, and where its links lead.
#[derive(Clone, Copy, PartialEq, Eq, Debug)]
pub struct Members<'a> {
    /// A name of the index a line, with LF behind each; 0 to 64 lines. A name may come
    /// twice.
    pub list: &'a [u8],
    /// The repository's URL, 1 to 255 bytes of 20 to 7E hex: a link to a file that is not
    /// listed is sent there.
    pub url: &'a [u8],
}

/// How much a fill or a book may make.
#[derive(Clone, Copy, PartialEq, Eq, Debug)]
pub struct Limits {
    /// The text limit, 1 to 1,048,576: no text made on the way may have more bytes.
    pub text: usize,
    /// The allowance: how many files may be taken in, each counted as often as a region
    /// takes it in. With the sizes of the files it bounds the time of a fill; a book takes
    /// the time of its assembly too, which it does not bound (docs/LIMITS.md).
    pub files: u32,
}

/// How many bytes of work a call takes: (records + list lines + 2) times the text limit.
/// A fill has no list lines.
///
/// Where that passes `usize::MAX`, it is `usize::MAX`, which no buffer has. The most that a
/// call takes, with 64 records, 64 lines and a text limit of 1,048,576, is 136,314,880.
///
/// ```
/// use jilgyemot::work_size;
///
/// assert_eq!(work_size(24, 24, 32_768), 1_638_400);
/// let mut work = [0; work_size(1, 0, 256)];
/// # assert_eq!(work.len(), 768);
/// ```
pub const fn work_size(records: usize, lines: usize, limit: usize) -> usize {
    records.saturating_add(lines).saturating_add(2).saturating_mul(limit)
}

/// Lists what a text marks.
///
/// The listing has a row for each span, then for each region, then for each problem, LF
/// behind each and tabs between the fields:
///
/// | Row | Fields |
/// |---|---|
/// | `span` | line, where its spec starts and ends, where its text starts and ends |
/// | `region` | opener's line, closer's line, where its path starts and ends, 1 for a peer or 0 |
/// | `problem` | line, number |
///
/// Places count bytes from 0, ends exclusive. It is refused by 5 at the line of the first
/// byte 80 hex or above, or by 17 at line 0 where the output is shorter than the listing.
///
/// ```
/// use jilgyemot::{Answer, scan};
///
/// let mut out = [0; 64];
/// let answer = scan(b"Limit <!--[const:MAX]-->6 m<!--[/]-->.\n", &mut out);
/// assert_eq!(answer, Answer::Accepted { text: b"span\t1\t11\t20\t24\t27\n", files: 0 });
/// ```
pub fn scan<'a>(text: &[u8], out: &'a mut [u8]) -> Answer<'a> {
    let mut numbers = [0; 6];
    c::scan(Some(text), Some(&mut *out), &mut numbers);
    Answer::from_numbers(numbers, out)
}

/// Fills the regions of a host with the files that they name, and these with those that
/// they name.
///
/// Work has at least [`work_size`]`(records, 0, limits.text)` bytes. It is refused by 1 to
/// 6 and 8 to 17.
///
/// ```
/// use jilgyemot::{FileSet, Host, Limits, fill, work_size};
///
/// let files = FileSet { index: b"steps.md\t0\t15\n", contents: b"# Steps\n\nClose." };
/// let host = Host { name: b"h.md", text: b"# H\n<!--[fragment:steps.md]-->\n<!--[/]-->\n" };
/// let (mut out, mut work) = ([0; 64], [0; work_size(1, 0, 64)]);
/// let answer = fill(files, host, Limits { text: 64, files: 1 }, &mut out, &mut work);
/// let text = b"# H\n<!--[fragment:steps.md]-->\n## Steps\n\nClose.\n<!--[/]-->\n";
/// assert_eq!(answer.text(), Ok(Some(&text[..])));
/// ```
pub fn fill<'a>(
    files: FileSet,
    host: Host,
    limits: Limits,
    out: &'a mut [u8],
    work: &mut [u8],
) -> Answer<'a> {
    let parts = [files.index, files.contents, host.name, host.text].map(Some);
    let (limit, mut numbers) = (limits.text as u64, [0; 6]);
    c::fill(parts, limit, limits.files, Some(&mut *out), Some(work), &mut numbers);
    Answer::from_numbers(numbers, out)
}

/// Joins the members into one text, in the list's order.
///
/// The limit is the text limit, and work has at least [`work_size`]`(records, list lines,
/// limit)` bytes. An empty list gives one LF. It is refused by 1 to 8, 14 and 16 to 19.
///
/// ```
/// use jilgyemot::{FileSet, Members, assemble, work_size};
///
/// let files = FileSet { index: b"a\t0\t4\nb\t4\t8\n", contents: b"# T\n# U\n# V\n" };
/// let members = Members { list: b"a\nb\n", url: b"https://river.example" };
/// let (mut out, mut work) = ([0; 64], [0; work_size(2, 2, 64)]);
/// let answer = assemble(files, members, 64, &mut out, &mut work);
/// assert_eq!(answer.text(), Ok(Some(&b"# T\n\n---\n\n# U\n## V\n"[..])));
/// ```
pub fn assemble<'a>(
    files: FileSet,
    members: Members,
    limit: usize,
    out: &'a mut [u8],
    work: &mut [u8],
) -> Answer<'a> {
    let parts = [files.index, files.contents, members.list, members.url].map(Some);
    let mut numbers = [0; 6];
    c::assemble(parts, limit as u64, Some(&mut *out), Some(work), &mut numbers);
    Answer::from_numbers(numbers, out)
}

/// Makes a book: fills the regions of each member, and assembles what comes of it.
///
/// The allowance holds for the whole list. A member with no region is kept as it is, and
/// may be longer than the text limit. Work has at least [`work_size`]`(records, list
/// lines, limits.text)` bytes. It is refused by 1 to 19. All members are filled before any
/// is assembled.
///
/// The [example](crate#example) of the package is one of a book.
pub fn book<'a>(
    files: FileSet,
    members: Members,
    limits: Limits,
    out: &'a mut [u8],
    work: &mut [u8],
) -> Answer<'a> {
    let parts = [files.index, files.contents, members.list, members.url].map(Some);
    let (limit, mut numbers) = (limits.text as u64, [0; 6]);
    c::book(parts, limit, limits.files, Some(&mut *out), Some(work), &mut numbers);
    Answer::from_numbers(numbers, out)
}
