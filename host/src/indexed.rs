//! What is handed in before the walk, good and with one fault or a few, for the
//! comparison of the leaf functions.

use crate::exhaustive::Exhaustive;
use crate::random::Random;
use crate::refusals::Sizes;

/// Index, contents, the host's name and text, list and URL.
pub type Texts = [Vec<u8>; 6];

const INDEX_PARTS: [&str; 8] = ["a", "b", "\t", "\t0", "\t1", "\n", "a\t0\t1\n", " "];

/// Whole lines, for contents of four bytes the last of which is wide.
const INDEX_LINES: [&str; 16] = [
    "", "a\t0\t3", "a\t1\t1", "b\t2\t1", "b\t4\t0", "c\t3\t1", "c\t0\t4", "d\t4\t1", "d\t5\t0",
    "e\t0", "e\t00\t1", "e\t0\t1\t", "\t0\t1", "e\t0\t123456789", "e\t1234567890\t0", "~ \t0\t0",
];

const LIST_LINES: [&str; 8] = ["", "a", "b", "a/b", "c", "A", "ab", "a\r"];

/// Inputs, the kinds by turns.
pub struct Inputs {
    pub parts: Exhaustive,
    pub lines: Exhaustive,
    pub lists: Exhaustive,
    random: Random,
    turn: usize,
}

impl Inputs {
    pub fn new(seed: u64) -> Self {
        Inputs {
            parts: Exhaustive::new(INDEX_PARTS.to_vec(), ""),
            lines: Exhaustive::new(INDEX_LINES.to_vec(), "\n"),
            lists: Exhaustive::new(LIST_LINES.to_vec(), "\n"),
            random: Random::new(seed),
            turn: 0,
        }
    }

    pub fn next(&mut self) -> (Texts, Sizes) {
        self.turn += 1;
        match self.turn % 8 {
            0 => (plain(self.parts.next(), b"\n\x80", Vec::new()), AMPLE),
            1 => (plain(self.lines.next(), b"a\n\n\x80", b"a\n".to_vec()), AMPLE),
            2 => (plain(b"a\t0\t0\nb\t0\t0\na/b\t0\t0\n".to_vec(), b"", self.lists.next()), AMPLE),
            _ => random_input(&mut self.random),
        }
    }
}

const AMPLE: Sizes = Sizes { limit: 1_048_576, out: 1 << 40, work: 1 << 40 };

/// An index or a list with the rest in order.
fn plain(index: Vec<u8>, contents: &[u8], list: Vec<u8>) -> Texts {
    [index, contents.to_vec(), b"host".to_vec(), Vec::new(), list, b"url".to_vec()]
}

/// The numbers of refusals.
const NUMBERS: [u64; 9] = [1, 2, 3, 4, 5, 6, 7, 8, 14];

/// A good input, or one with up to three faults.
fn random_input(random: &mut Random) -> (Texts, Sizes) {
    let faults: Vec<u64> = (0..random.below(4)).map(|_| random.pick(&NUMBERS)).collect();
    let has = |number| faults.contains(&number);
    let names = names(has(2), has(4), random);
    let mut contents = text(random);
    let parts = parts(names.len(), contents.len(), has(3), random);
    let mut host = text(random);
    wide_bytes(&mut host, &mut contents, &parts, has(5), random);
    let [name, url] = [(); 2].map(|()| host_name(has(6), random));
    let list = list(&names, has(14), has(7), random);
    let index = index(&names, &parts, has(1), random);
    let lines = list.iter().filter(|&&byte| byte == b'\n').count();
    let texts = names.len() + random.pick(&[0, lines, lines]);
    let sizes = sizes(texts as u64, has(8), random);
    ([index, contents, name, host, list, url], sizes)
}

/// How many records or list lines there are.
fn amount(many: bool, random: &mut Random) -> usize {
    match random.below(12) {
        _ if many => random.within(65, 67),
        0 => random.within(63, 64),
        _ => random.below(6),
    }
}

fn names(many: bool, twice: bool, random: &mut Random) -> Vec<Vec<u8>> {
    let mut names: Vec<Vec<u8>> = (0..amount(many, random)).map(|at| name(at, random)).collect();
    if twice && names.len() > 1 {
        let second = random.within(1, names.len() - 1);
        names[second] = names[random.below(second)].clone();
    }
    names
}

/// A good name with a number in it, so that few are the same.
fn name(at: usize, random: &mut Random) -> Vec<u8> {
    let name = match random.below(6) {
        0 => format!("docs/{at}.md"),
        1 => format!(" {at}~"),
        2 => format!("{at}{}", "x".repeat(random.below(40))),
        3 if random.one_in(4) => format!("{at:!>255}"),
        4 if at < 15 => char::from(b' ' + at as u8).to_string(),
        _ => at.to_string(),
    };
    name.into_bytes()
}

const TEXT_BYTES: &[u8] = b"ab #\t\n\n\r\x00\x1f\x7f";
const WIDE_BYTES: &[u8] = b"\x80\x81\xc3\xa9\xff";

/// A text of a file or a host, or the contents.
fn text(random: &mut Random) -> Vec<u8> {
    let most = if random.one_in(8) { 600 } else { 30 };
    (0..random.below(most)).map(|_| random.pick(TEXT_BYTES)).collect()
}

/// Start and length of files in contents of some length, in one of them too much.
fn parts(count: usize, length: usize, past: bool, random: &mut Random) -> Vec<(usize, usize)> {
    let mut parts: Vec<(usize, usize)> = (0..count).map(|_| part(length, random)).collect();
    if past && count > 0 {
        let at = random.below(count);
        let start = parts[at].0;
        parts[at] = match random.below(6) {
            0 => (start, length - start + 1),
            1 => (length, 1),
            2 => (length + 1, 0),
            3 => (random.below(1_000_000_000 - length) + length, random.below(2)),
            4 => (start, 999_999_999),
            _ => (999_999_999, 999_999_999),
        };
    }
    parts
}

fn part(length: usize, random: &mut Random) -> (usize, usize) {
    let start = random.within(0, length);
    let room = length - start;
    match random.below(4) {
        0 => (start, room),
        1 => (length, 0),
        _ => (start, random.within(0, room)),
    }
}

/// Wide bytes in the host or in a file, or else only where no file is.
fn wide_bytes(
    host: &mut Vec<u8>,
    contents: &mut [u8],
    parts: &[(usize, usize)],
    within: bool,
    random: &mut Random,
) {
    if within && random.one_in(2) {
        host.insert(random.below(host.len() + 1), random.pick(WIDE_BYTES));
    }
    for _ in 0..random.below(4).min(contents.len()) {
        let at = random.below(contents.len());
        let inside = parts.iter().any(|&(start, length)| (start..start + length).contains(&at));
        if within || !inside {
            contents[at] = random.pick(WIDE_BYTES);
        }
    }
}

/// A name for the host, or a URL.
pub fn host_name(bad: bool, random: &mut Random) -> Vec<u8> {
    let some = random.within(1, 30);
    let size = random.pick(&[1, 255, some, some]);
    let mut name: Vec<u8> = (0..size).map(|_| random.within(0x20, 0x7E) as u8).collect();
    if bad {
        match random.below(5) {
            0 => name.clear(),
            1 => name.resize(random.within(256, 257), b'x'),
            2 => {}
            _ => name[random.below(size)] = random.pick(b"\0\t\n\r\x1f\x7f\x80\xff"),
        }
    }
    name
}

fn list(names: &[Vec<u8>], absent: bool, ill_formed: bool, random: &mut Random) -> Vec<u8> {
    let many = ill_formed && random.one_in(2);
    let count = if names.is_empty() && !many { 0 } else { amount(many, random) };
    let known = |random: &mut Random| match names.len() {
        0 => b"zz".to_vec(),
        count => names[random.below(count)].clone(),
    };
    let mut lines: Vec<Vec<u8>> = (0..count).map(|_| known(random)).collect();
    if absent {
        let at = random.below(lines.len() + 1);
        let line = strange(known(random), random);
        if at < lines.len() { lines[at] = line } else { lines.push(line) }
    }
    let mut list = ended(&lines);
    if ill_formed && !many && list.pop().is_none() {
        list.push(b'a');
    }
    list
}

/// What is near a name.
fn strange(mut name: Vec<u8>, random: &mut Random) -> Vec<u8> {
    let last = name.len() - 1;
    match random.below(7) {
        0 => name.clear(),
        1 => name.truncate(last),
        2 => name.push(random.pick(b" x\r\t\0\x80\xff")),
        3 => name[last] ^= 1,
        4 => name.insert(0, b'/'),
        5 => name.resize(300, b'x'),
        _ => name = b"zz".to_vec(),
    }
    name
}

/// Lines, each with its LF.
fn ended(lines: &[Vec<u8>]) -> Vec<u8> {
    lines.iter().flat_map(|line| [line, &b"\n"[..]].concat()).collect()
}

/// What follows a name in a line that is no record.
const BAD_FIELDS: [&str; 29] = [
    "", "\t", "\t\t", "\t0", "\t0\t", "\t\t0", "\t0\t0\t", "\t0\t0\t0", "\t\t0\t0", "\t0\t\t0",
    " 0 0", "\t0 \t0", "\t 0\t0", "\t0\t 0", "\t0\t0 ", "\t0\t0\r", "\t00\t0", "\t0\t00",
    "\t0\t01", "\t+0\t0", "\t0\t-0", "\t/\t0", "\t0\t:", "\t0\ta", "\t0x0\t0", "\t0\t0000000000",
    "\t1234567890\t0", "\t0\t4294967296", "\t18446744073709551616\t0",
];

const BAD_NAME_BYTES: &[u8] = b"\0\t\r\x1f\x7f\x80\xff";

pub fn bad_line(mut name: Vec<u8>, random: &mut Random) -> Vec<u8> {
    match random.below(6) {
        0 => name.clear(),
        1 => name.resize(random.within(256, 257), b'x'),
        2 => name.insert(random.below(name.len() + 1), random.pick(BAD_NAME_BYTES)),
        3 => return Vec::new(),
        _ => return [&name, random.pick(&BAD_FIELDS).as_bytes()].concat(),
    }
    [&name[..], b"\t0\t0"].concat()
}

fn index(
    names: &[Vec<u8>],
    parts: &[(usize, usize)],
    ill_formed: bool,
    random: &mut Random,
) -> Vec<u8> {
    let fields = |(start, length): &(usize, usize)| format!("\t{start}\t{length}").into_bytes();
    let records = names.iter().zip(parts);
    let mut lines: Vec<Vec<u8>> =
        records.map(|(name, part)| [&name[..], &fields(part)].concat()).collect();
    if ill_formed && !random.one_in(4) {
        let somewhere = random.below(lines.len() + 1);
        let at = random.pick(&[0, lines.len(), somewhere]);
        let line = bad_line(b"bad".to_vec(), random);
        if at < lines.len() && random.one_in(2) {
            lines[at] = line
        } else {
            lines.insert(at, line)
        }
        return ended(&lines);
    }
    let mut index = ended(&lines);
    if ill_formed && !index.is_empty() {
        damage(&mut index, random);
    }
    index
}

/// Leaves out the last LF, or changes a byte somewhere.
pub fn damage(index: &mut Vec<u8>, random: &mut Random) {
    let at = random.below(index.len());
    match random.below(4) {
        0 => drop(index.pop()),
        1 => drop(index.remove(at)),
        2 => index.insert(at, random.pick(b"\t\n 0a\x80")),
        _ => index[at] ^= 1 << random.below(8),
    }
}

/// Limits that are none, some of them good ones in fewer bits.
const BAD_LIMITS: [u64; 8] =
    [0, 0, 1_048_577, 1_048_577, (1 << 32) + 1, 1 << 63, u64::MAX - 1, u64::MAX];

/// A limit with an output and a work buffer for so many texts and two more.
fn sizes(texts: u64, bad: bool, random: &mut Random) -> Sizes {
    let some = random.within(1, 1_048_576) as u64;
    let limit = random.pick(&[1, 2, 1_048_575, 1_048_576, some]);
    let full = (texts + 2) * limit;
    let more = |least: u64, random: &mut Random| {
        random.pick(&[least, least, least + 1, least + limit, 1 << 63, u64::MAX])
    };
    let mut sizes = Sizes { limit, out: more(limit, random), work: more(full, random) };
    if bad {
        match random.below(6) {
            0..=1 => sizes.limit = random.pick(&BAD_LIMITS),
            2 => sizes.out = limit - 1,
            3 => sizes.work = full - 1,
            4 => sizes.work = random.pick(&[0, full - limit, full - 2 * limit]),
            _ => sizes.out = 0,
        }
    }
    sizes
}
