//! The named cases of docs/DIFFERENCES.md, which `cases` lists: a name, and a text behind
//! each tab, in each line that is no comment.

use jilgyemot_host::assembling::case::Case as Assembly;
use jilgyemot_host::assembling::examples::URL;
use jilgyemot_host::filling::case::Case as Fill;
use jilgyemot_host::walking::set::{FileSet, OwnFile};

const SCANS: &str = include_str!("../cases/differences.txt");
const FILLS: &str = include_str!("../cases/fills.txt");
const ASSEMBLIES: &str = include_str!("../cases/assemblies.txt");

/// Lists the first member once more.
const AGAIN: &[u8] = b"=";

/// One text for each case.
pub fn scans() -> Vec<Vec<u8>> {
    texts(SCANS).map(|texts| <[Vec<u8>; 1]>::try_from(texts).expect("one text").concat()).collect()
}

/// The host `h` and the file `a`.
pub fn fills() -> impl Iterator<Item = Fill> {
    texts(FILLS).map(|texts| {
        let [host, file] = <[Vec<u8>; 2]>::try_from(texts).expect("two texts");
        Fill::of(&[(b"a".to_vec(), file)], b"h", &host)
    })
}

/// The members `a`, `b` and so on.
pub fn assemblies() -> impl Iterator<Item = Assembly> {
    texts(ASSEMBLIES).map(|texts| {
        let name = |at: usize| vec![b'a' + if texts[at] == AGAIN { 0 } else { at as u8 }];
        let names: Vec<Vec<u8>> = (0..texts.len()).map(name).collect();
        let list: Vec<&[u8]> = names.iter().map(|name| &name[..]).collect();
        let own = names.iter().cloned().zip(texts.iter().cloned());
        let files: Vec<OwnFile> = own.filter(|(_, text)| text != AGAIN).collect();
        Assembly::of(FileSet::of(&files), &list, URL.as_bytes())
    })
}

fn texts(cases: &'static str) -> impl Iterator<Item = Vec<Vec<u8>>> {
    let named = cases.lines().filter(|line| !line.starts_with('#'));
    named.map(|line| {
        let texts = line.split('\t').skip(1).map(unescaped);
        texts.collect::<Option<_>>().expect("a list of named cases")
    })
}

/// The bytes of a text in which `\n`, `\t`, `\r`, `\\` and `\xNN` stand for one
/// byte each, or nothing where another escape stands in it.
fn unescaped(text: &str) -> Option<Vec<u8>> {
    let mut from = text.bytes();
    let mut bytes = Vec::new();
    while let Some(byte) = from.next() {
        bytes.push(match byte {
            b'\\' => match from.next()? {
                b'n' => b'\n',
                b't' => b'\t',
                b'r' => b'\r',
                b'\\' => b'\\',
                b'x' => hex_digit(from.next()?)? * 16 + hex_digit(from.next()?)?,
                _ => return None,
            },
            plain => plain,
        });
    }
    Some(bytes)
}

fn hex_digit(byte: u8) -> Option<u8> {
    Some(char::from(byte).to_digit(16)? as u8)
}
