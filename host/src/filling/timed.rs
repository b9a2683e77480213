//! Cases to time a fill on, each accepted or with no region.

use super::case::Case;
use crate::notes::notes;
use crate::random::Random;

const KIB: usize = 1024;
const MIB: usize = 1024 * KIB;

pub fn rows() -> Vec<(&'static str, Case)> {
    let mut random = Random::new(1);
    vec![
        ("72 KiB from 8 files", of_files(8, 8 * KIB, 8 * KIB, &mut random)),
        ("1 MiB from 20 files", of_files(20, 49 * KIB, 40 * KIB, &mut random)),
        ("64 files in one chain", chain(64, 2 * KIB, &mut random)),
        ("2,000 regions of one small file", regions(2_000)),
        ("no region, 1 MiB", Case::of(&[], b"host.md", &plain(MIB, &mut random))),
    ]
}

/// Notes of `size` bytes without regions, and with no heading below level 4.
pub fn plain(size: usize, random: &mut Random) -> Vec<u8> {
    let mut text = Vec::with_capacity(size);
    while text.len() < size {
        let mut inside = false;
        for line in notes(size - text.len(), random).split_inclusive(|&byte| byte == b'\n') {
            let opens = line.starts_with(b"<!--[fragment:");
            if !inside && !opens {
                text.extend(line);
            }
            inside = opens || inside && !line.starts_with(b"<!--[/]-->");
        }
    }
    text
}

pub fn region(name: &str, peer: bool) -> String {
    let peer = if peer { ":peer" } else { "" };
    format!("<!--[fragment:{name}{peer}]-->\n<!--[/]-->\n")
}

/// Own lines under a heading, and a link to the host.
fn own(size: usize, random: &mut Random) -> Vec<u8> {
    let mut text = b"# Own\n\n[the datum](../host.md#datum), [the book](docs/book.md)\n".to_vec();
    text.extend(plain(size - text.len(), random));
    text
}

/// A host of `own_size` bytes of its own that takes in files of `size` bytes.
fn of_files(count: usize, size: usize, own_size: usize, random: &mut Random) -> Case {
    let mut host = Vec::new();
    let mut files = Vec::new();
    for at in 0..count {
        let name = format!("docs/fragments/{at}.md");
        host.extend(b"# Part\n\n");
        host.extend(region(&name, false).bytes());
        host.extend(plain(own_size / count, random));
        files.push((name.into_bytes(), own(size, random)));
    }
    Case::of(&files, b"docs/host.md", &host)
}

/// Each file takes in the next one as its peer.
fn chain(count: usize, size: usize, random: &mut Random) -> Case {
    let mut files = Vec::new();
    for at in 0..count {
        let mut text = b"# A file of the chain\n\n".to_vec();
        if at + 1 < count {
            text.extend(region(&format!("{}.md", at + 1), true).bytes());
        }
        text.extend(own(size, random));
        files.push((format!("{at}.md").into_bytes(), text));
    }
    Case::of(&files, b"host.md", format!("# Host\n{}", region("0.md", true)).as_bytes())
}

fn regions(count: usize) -> Case {
    let host = "# Host\n\n".to_string() + &region("small.md", false).repeat(count);
    let small = b"# Small\n\nOne line, [a link](host.md#small).\n".to_vec();
    Case::of(&[(b"small.md".to_vec(), small)], b"host.md", host.as_bytes())
}
