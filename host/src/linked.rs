//! Paths, and lines of links with what they stand in, for the comparison of the
//! leaf functions.

use crate::exhaustive::Exhaustive;
use crate::headed::{random_title, underscored_title};
use crate::random::Random;

const PATH_PARTS: [&str; 8] = ["a", "b", ".", "..", "", "/", "...", ".a"];

const NEAR_PATH_PARTS: [&str; 10] =
    ["..a", "a..", "....", ". ", " ..", "\\", "a b", "a.md", "docs", "#"];

/// Paths with directories, the kinds by turns.
pub struct Paths {
    parts: Exhaustive,
    /// Parts of which the first `taken` are a path next, and the others a directory.
    both: Vec<&'static str>,
    taken: usize,
    complete: usize,
    random: Random,
    turn: usize,
}

impl Paths {
    pub fn new(seed: u64) -> Self {
        Paths {
            parts: Exhaustive::new(PATH_PARTS.to_vec(), "/"),
            both: Vec::new(),
            taken: 1,
            complete: 0,
            random: Random::new(seed),
            turn: 0,
        }
    }

    /// A path and a directory.
    pub fn next(&mut self) -> [Vec<u8>; 2] {
        self.turn += 1;
        if self.turn % 3 != 0 {
            return self.next_parts();
        }
        [(); 2].map(|()| random_path(&mut self.random).into_bytes())
    }

    fn next_parts(&mut self) -> [Vec<u8>; 2] {
        if self.taken > self.both.len() {
            self.complete = self.parts.complete();
            self.both = self.parts.next_tokens();
            self.taken = 0;
        }
        let (path, dir) = self.both.split_at(self.taken);
        self.taken += 1;
        [path, dir].map(|parts| parts.join("/").into_bytes())
    }

    /// The number of parts up to which every path in every directory has been
    /// given, the parts of both counted together.
    pub fn complete(&self) -> usize {
        self.complete
    }
}

/// One path in four may be long, and one part in four is.
pub fn random_path(random: &mut Random) -> String {
    let most = if random.one_in(4) { 80 } else { 8 };
    let mut path = String::new();
    for _ in 0..random.below(most) {
        match random.below(8) {
            0 => path.push_str(random.pick(&NEAR_PATH_PARTS)),
            1..=2 => path.push_str(&"x".repeat(random.within(1, 20))),
            _ => path.push_str(random.pick(&PATH_PARTS)),
        }
        if !random.one_in(8) {
            path.push('/');
        }
    }
    if random.one_in(2) {
        path.pop();
    }
    path
}

const LINE_PARTS: [&str; 19] = [
    "[", "]", "](", ")", "(", "#k", "a.md", "../a.md#k", "/a.md", "http://x/y", "a://b#c",
    "mailto:x", "mailto", "a#", "a#b#c", "x)y", " ", "word", "/",
];

/// Whole links, and what breaks one.
const LINKS: [&str; 27] = [
    "[w]()", "[w](#k)", "[w](#)", "[w](a.md)", "[w](a.md#k)", "[w](../a.md)", "[w](../a.md#k)",
    "[w](/a.md#)", "[w](/docs/a.md)", "[w](http://x/y)", "[w](a://b#c)", "[w](mailto:x)",
    "[w](mailto)", "[w](a#)", "[w](a#b#c)", "[w](x)y)", "![w](./a.md)", "[[w]](a)", "[w](..)",
    "[w](../..#k)", "[w]( a.md)", "[w](a.md", "](", "]", "(", ")", " word ",
];

const NEAR_LINE_PARTS: [&str; 16] = [
    "])", "]((", "]](", "] (", "[](", "()", "mailto:", "Mailto:x", "://", ":/", "//", "#", "?q#k",
    "<a.md>", "\t", "\r",
];

/// Lines of links, the kinds by turns.
pub struct Lines {
    pub parts: Exhaustive,
    pub links: Exhaustive,
    random: Random,
    turn: usize,
}

impl Lines {
    pub fn new(seed: u64) -> Self {
        Lines {
            parts: Exhaustive::new(LINE_PARTS.to_vec(), ""),
            links: Exhaustive::new(LINKS.to_vec(), ""),
            random: Random::new(seed),
            turn: 0,
        }
    }

    pub fn next(&mut self) -> (Vec<u8>, Setting) {
        self.turn += 1;
        let setting = Setting::random(&mut self.random);
        let line = match self.turn % 4 {
            0 => self.parts.next(),
            1 => self.links.next(),
            _ => random_line(&setting, &mut self.random).into_bytes(),
        };
        (line, setting)
    }
}

fn random_line(setting: &Setting, random: &mut Random) -> String {
    let mut line = String::new();
    for _ in 0..random.below(9) {
        match random.below(8) {
            0 => line.push_str(random.pick(&NEAR_LINE_PARTS)),
            1 => line.push_str(random.pick(&LINKS)),
            2 => line.push_str(&format!("[w]({})", random_path(random))),
            3 => line.push_str(&format!("[w]({}#k)", random_path(random))),
            4 => line.push_str(&named_link(setting, random)),
            _ => line.push_str(random.pick(&LINE_PARTS)),
        }
    }
    line
}

/// A link to the host or to a member.
fn named_link(setting: &Setting, random: &mut Random) -> String {
    let member = random.below(setting.members.len());
    let name = random.pick(&[setting.host, setting.members[member].0]);
    let root = random.pick(&["/", "/../", "../../../..//./"]);
    let fragment = random.pick(&["", "#", "#k", "#k#l"]);
    format!("[w]({root}{name}{fragment})")
}

/// What a line stands in.
#[derive(Debug)]
pub struct Setting {
    /// A host, and the file with the line that it takes in.
    pub host: &'static str,
    pub file: &'static str,
    /// Names and titles of members. One of them holds the line.
    pub members: Vec<(&'static str, String)>,
    pub holder: usize,
    pub url: &'static str,
}

/// Many are what a target of a line resolves to, and some are what none does.
const NAMES: [&str; 14] = [
    "a.md", "a.md", "a", "b", "x", "mailto", "docs/a.md", "docs/a", "docs/b/a.md", "docs/b/c.md",
    "a.md/a", "/a.md", "docs/../a.md", "docs//a.md",
];

/// None of them is a host.
const FILES: [&str; 7] =
    ["c.md", "docs/d.md", "docs/b/d.md", "docs/b/c/d", "/c.md", "docs//d", "../docs/d.md"];

const URLS: [&str; 9] =
    ["https://h", "https://h/", "https://h//", "https://h/a/b///", "h//a", "", "/", "///", "a#b/"];

impl Setting {
    fn random(random: &mut Random) -> Self {
        let mut members: Vec<(&str, String)> = Vec::new();
        for at in 0..random.within(1, 3) {
            // What a title begins with keeps their anchors apart.
            let underscored = random.one_in(8);
            let title = if underscored { underscored_title(random) } else { random_title(random) };
            let title = format!("q{at} {title}");
            let again = at > 0 && random.one_in(4);
            let name = if again { members[0].0 } else { random.pick(&NAMES) };
            members.push((name, title));
        }
        Setting {
            host: random.pick(&NAMES),
            file: random.pick(&FILES),
            holder: random.below(members.len()),
            members,
            url: random.pick(&URLS),
        }
    }
}
