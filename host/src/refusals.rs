//! The refusals before the walk, from document 01 ("Records", its table and its
//! order) alone: the Rust does not have them.

use crate::answer::{Answer, refused};

/// What a fill is handed (`name` and `text` of the host), and what an assembly
/// or a book is handed (`list` and `url`).
#[derive(Clone, Copy)]
pub struct Input<'a> {
    pub index: &'a [u8],
    pub contents: &'a [u8],
    pub name: &'a [u8],
    pub text: &'a [u8],
    pub list: &'a [u8],
    pub url: &'a [u8],
    pub sizes: Sizes,
}

/// The text limit, and how long the output and the work buffer are.
#[derive(Clone, Copy, Debug)]
pub struct Sizes {
    pub limit: u64,
    pub out: u64,
    pub work: u64,
}

/// Sizes that nothing is refused for.
pub const AMPLE: Sizes = Sizes { limit: 1, out: u64::MAX, work: u64::MAX };

/// A well-formed line of an index.
pub struct Record<'a> {
    pub name: &'a [u8],
    pub start: usize,
    pub length: usize,
}

/// The faults of a fill in their order: the first is the one that is given. Of
/// those behind it only the numbers count, as lines may be left out before them.
pub fn of_fill(input: &Input) -> Vec<Answer> {
    let records = records(input.index);
    let mut faults = of_index(input, &records);
    faults.extend(wide_byte(0, input.text));
    faults.extend(wide_file(input.contents, &records));
    faults.extend(name_form(input.name));
    faults.extend(short_sizes(input.sizes, records.len()));
    faults
}

/// The same for an assembly or a book.
pub fn of_book(input: &Input) -> Vec<Answer> {
    let records = records(input.index);
    let (names, rest) = lines(input.list);
    let mut faults = of_index(input, &records);
    faults.extend(wide_file(input.contents, &records));
    faults.extend(name_form(input.url));
    faults.extend((!rest.is_empty() || names.len() > 64).then(|| refused(7, 0)));
    faults.extend(short_sizes(input.sizes, records.len() + names.len()));
    let absent = |name: &&[u8]| !records.iter().any(|record| record.name == *name);
    faults.extend(names.iter().position(absent).map(|at| refused(14, at + 1)));
    faults
}

/// Refusals 1 to 4.
fn of_index(input: &Input, records: &[Record]) -> Vec<Answer> {
    let past = |record: &Record| record.start + record.length > input.contents.len();
    let twice = |at: &usize| records[..*at].iter().any(|record| record.name == records[*at].name);
    let mut faults = Vec::new();
    faults.extend(ill_formed(input.index));
    faults.extend((records.len() > 64).then(|| refused(2, 65)));
    faults.extend(records.iter().position(past).map(|at| refused(3, at + 1)));
    faults.extend((0..records.len()).find(twice).map(|at| refused(4, at + 1)));
    faults
}

/// What stands before each LF, and what stands behind the last one.
fn lines(text: &[u8]) -> (Vec<&[u8]>, &[u8]) {
    let mut lines: Vec<&[u8]> = text.split(|&byte| byte == b'\n').collect();
    let rest = lines.pop().unwrap_or_default();
    (lines, rest)
}

pub fn records(index: &[u8]) -> Vec<Record<'_>> {
    lines(index).0.into_iter().filter_map(record).collect()
}

fn ill_formed(index: &[u8]) -> Option<Answer> {
    let (lines, rest) = lines(index);
    let bad = lines.iter().position(|line| record(line).is_none());
    let unended = (!rest.is_empty()).then_some(lines.len());
    bad.or(unended).map(|at| refused(1, at + 1))
}

fn record(line: &[u8]) -> Option<Record<'_>> {
    let fields: Vec<&[u8]> = line.split(|&byte| byte == b'\t').collect();
    let [name, start, length] = fields[..] else { return None };
    if !is_name(name) {
        return None;
    }
    Some(Record { name, start: number(start)?, length: number(length)? })
}

fn is_name(name: &[u8]) -> bool {
    (1..=255).contains(&name.len()) && name.iter().all(|byte| (0x20..=0x7E).contains(byte))
}

fn number(field: &[u8]) -> Option<usize> {
    let digits = (1..=9).contains(&field.len()) && field.iter().all(u8::is_ascii_digit);
    let needless = field.len() > 1 && field[0] == b'0';
    if digits && !needless { str::from_utf8(field).ok()?.parse().ok() } else { None }
}

fn wide_byte(file: usize, text: &[u8]) -> Option<Answer> {
    let at = text.iter().position(|&byte| byte >= 0x80)?;
    let feeds = text[..at].iter().filter(|&&byte| byte == b'\n').count();
    Some([2, 5, file as u64, feeds as u64 + 1, 0, 0])
}

fn wide_file(contents: &[u8], records: &[Record]) -> Option<Answer> {
    records.iter().enumerate().find_map(|(at, record)| {
        let text = contents.get(record.start..record.start + record.length);
        wide_byte(at + 1, text.unwrap_or_default())
    })
}

fn name_form(name: &[u8]) -> Option<Answer> {
    (!is_name(name)).then(|| refused(6, 0))
}

/// Refusal 8, where the work buffer has to hold so many texts and two more.
pub fn short_sizes(sizes: Sizes, texts: usize) -> Option<Answer> {
    let Sizes { limit, out, work } = sizes;
    let full = (texts as u128 + 2) * u128::from(limit);
    let good = (1..=1_048_576).contains(&limit) && out >= limit && u128::from(work) >= full;
    (!good).then(|| refused(8, 0))
}
