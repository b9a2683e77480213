//! Cases to time a book on: accepted ones, and a diamond of files that only B ends.

use crate::assembling::case::Case;
use crate::assembling::timed::{noted, of_files};
use crate::filling::timed::{plain, region};
use crate::random::Random;
use crate::walking::set::OwnFile;

const KIB: usize = 1024;

pub fn rows() -> Vec<(&'static str, Case)> {
    let mut random = Random::new(1);
    let yearbook = Station { members: 40, own: 15_800, headed: 20, common: 4, size: 2 * KIB };
    let small = Station { members: 12, own: KIB, headed: 3, common: 2, size: 512 };
    vec![
        ("40 members, 853 KiB together", yearbook.case(&mut random)),
        ("12 notes of a small station", small.case(&mut random)),
        ("10 levels of a diamond, 2,046 files", diamond(10, "", "text\n")),
    ]
}

/// Members with `own` bytes of notes each. The first `headed` of them take in a file with
/// headings that no other takes in, and each two of the `common` ones, which have none
/// and the last of which takes in the first. These files have `size` bytes.
struct Station {
    members: usize,
    own: usize,
    headed: usize,
    common: usize,
    size: usize,
}

impl Station {
    fn case(&self, random: &mut Random) -> Case {
        let mut files: Vec<OwnFile> = (0..self.members).map(|at| self.member(at, random)).collect();
        for at in 0..self.headed {
            let text = noted(self.members + at, self.members, self.size, random);
            files.push((headed_name(at).into_bytes(), text));
        }
        files.extend((0..self.common).map(|at| self.common(at, random)));
        of_files(&files, self.members)
    }

    fn member(&self, at: usize, random: &mut Random) -> OwnFile {
        let text = String::from_utf8(noted(at, self.members, self.own, random));
        let text = text.expect("notes are ASCII");
        let (title, notes) = text.split_once("\n\n").expect("a title comes first");
        let headed = if at < self.headed { region(&headed_name(at), false) } else { String::new() };
        let [one, two] = [at, at + 1].map(|at| region(&common_name(at % self.common), false));
        let text = format!("{title}\n\n{headed}{one}\n{two}\n{notes}");
        (format!("docs/{at}.md").into_bytes(), text.into_bytes())
    }

    fn common(&self, at: usize, random: &mut Random) -> OwnFile {
        let headed = |line: &&[u8]| line.starts_with(b"#");
        let notes = plain(self.size, random);
        let lines = notes.split(|&byte| byte == b'\n').filter(|line| !headed(line));
        let mut text = lines.collect::<Vec<_>>().join(&b'\n');
        if at + 1 == self.common && at > 0 {
            text.extend(region(&common_name(0), false).bytes());
        }
        (common_name(at).into_bytes(), text)
    }
}

fn headed_name(at: usize) -> String {
    format!("docs/steps/{at}.md")
}

fn common_name(at: usize) -> String {
    format!("docs/common/{at}.md")
}

/// A member that takes in a file twice, and so on through files of so many levels: two
/// files in the first, four in the second. Each region has old lines in it, and the last
/// file has this text.
pub fn diamond(levels: usize, old: &str, last: &str) -> Case {
    let text = |at: usize| match at {
        _ if at == levels => last.to_string(),
        0 => "# Station\n".to_string() + &twice(1, old),
        _ => twice(at + 1, old),
    };
    let files: Vec<OwnFile> =
        (0..=levels).map(|at| (at.to_string().into_bytes(), text(at).into_bytes())).collect();
    of_files(&files, 1)
}

fn twice(file: usize, old: &str) -> String {
    format!("<!--[fragment:{file}]-->\n{old}<!--[/]-->\n").repeat(2)
}
