//! Cases to time an assembly on, each accepted.

use super::case::Case;
use crate::filling::timed::plain;
use crate::random::Random;
use crate::walking::set::{FileSet, OwnFile};

const KIB: usize = 1024;

pub fn rows() -> Vec<(&'static str, Case)> {
    let mut random = Random::new(1);
    vec![
        ("40 members, 685 KiB together", of_notes(40, 685 * KIB / 40, &mut random)),
        ("64 members of 1 KiB", of_notes(64, KIB, &mut random)),
        ("one member, 1 MiB", of_notes(1, NEAR_MIB, &mut random)),
        ("4 members of 5,000 headings", of_members(4, |at| headings(at, 5_000))),
        ("8 members of dense links", of_members(8, |at| links(at, 500))),
    ]
}

/// A member that, assembled, has some bytes less than 1 MiB.
const NEAR_MIB: usize = 1_008 * KIB;

fn of_members(count: usize, mut text: impl FnMut(usize) -> Vec<u8>) -> Case {
    let named = |at: usize| format!("docs/{at}.md").into_bytes();
    let files: Vec<OwnFile> = (0..count).map(|at| (named(at), text(at))).collect();
    of_files(&files, count)
}

/// The first files are listed.
pub fn of_files(files: &[OwnFile], members: usize) -> Case {
    let list: Vec<&[u8]> = files[..members].iter().map(|(name, _)| &name[..]).collect();
    Case::of(FileSet::of(files), &list, b"https://river.example/book")
}

fn of_notes(count: usize, size: usize, random: &mut Random) -> Case {
    of_members(count, |at| noted(at, count, size, random))
}

/// The member of a number: notes of `size` bytes or a few less, every heading with the
/// number in it, and a link every twentieth line or so.
pub fn noted(number: usize, members: usize, size: usize, random: &mut Random) -> Vec<u8> {
    let mut text = format!("# Station {number}\n\n");
    for line in plain(size, random).split(|&byte| byte == b'\n') {
        let line = str::from_utf8(line).expect("notes are ASCII");
        let line = match line.as_bytes() {
            [b'#', ..] => format!("{line} at {number}\n"),
            [b'a'..=b'z', ..] if random.one_in(8) => {
                format!("{line} {}\n", link(random.below(members), random))
            }
            _ => format!("{line}\n"),
        };
        if text.len() + line.len() > size {
            break;
        }
        text.push_str(&line);
    }
    text.into_bytes()
}

fn link(to: usize, random: &mut Random) -> String {
    match random.below(6) {
        0 => format!("[station {to}]({to}.md)"),
        1 => format!("[its datum](../docs/{to}.md#station-{to})"),
        2 => "[the rules](../rules.md#rating)".to_string(),
        3 => "[the staff](./staff/rota.md)".to_string(),
        4 => "[levels](https://river.example/levels?station=4)".to_string(),
        _ => format!("[above](#station-{to})"),
    }
}

fn headings(number: usize, count: usize) -> Vec<u8> {
    let mut text = format!("# Station {number}\n\n");
    for at in 1..count {
        let hashes = "#".repeat(2 + at % 3);
        text += &format!("{hashes} Reading {at} at {number}\n\nlevel 6 m\n");
    }
    text.into_bytes()
}

/// Four links in each line.
fn links(number: usize, lines: usize) -> Vec<u8> {
    let mut text = format!("# Station {number}\n\n");
    for at in 0..lines {
        let to = at % 8;
        text += &format!("[next]({to}.md), [datum](../docs/{to}.md#k), ");
        text += &format!("[rota](staff/{at}.md), [map](/map.md#{at})\n");
    }
    text.into_bytes()
}
