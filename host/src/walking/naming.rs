//! Anchors, links and paths, as `slug`, `anchor_self_links`, `rewrite_links` and
//! `resolve`, which document 01 names, and for anchors as document 02, Req 01, says.
//! Nothing of the Rust is called here.

use super::reading::{find, holds, trimmed};

/// A heading text's anchor.
pub fn anchor(text: &[u8]) -> Vec<u8> {
    let byte = |&byte: &u8| match byte {
        b' ' => Some(b'-'),
        b'-' | b'_' => Some(byte),
        _ => byte.is_ascii_alphanumeric().then(|| byte.to_ascii_lowercase()),
    };
    trimmed(&plain(text)).iter().filter_map(byte).collect()
}

/// Whether a heading text has a run of underscores that stays by Req 01. The Rust
/// gives the same anchor where there is none.
pub fn has_staying_run(text: &[u8]) -> bool {
    let (cut, _) = cut(text);
    (0..cut.len()).any(|at| stays(&cut, at))
}

/// A text without its markup: in a link's text all of it stays.
fn plain(text: &[u8]) -> Vec<u8> {
    let (cut, linked) = cut(text);
    let goes = |at: usize| b"`*_".contains(&cut[at]) && !linked[at] && !stays(&cut, at);
    (0..cut.len()).filter(|&at| !goes(at)).map(|at| cut[at]).collect()
}

/// A text with its links cut to what stands in their brackets, and for each byte whether
/// it stood there.
fn cut(text: &[u8]) -> (Vec<u8>, Vec<bool>) {
    let (mut cut, mut linked) = (Vec::new(), Vec::new());
    let mut rest = text;
    while let Some((&byte, behind)) = rest.split_first() {
        if byte == b'[' {
            let inside;
            (inside, rest) = parted(behind, b']');
            cut.extend(inside);
            if let Some(target) = rest.strip_prefix(b"(") {
                rest = parted(target, b')').1;
            }
        } else {
            cut.push(byte);
            rest = behind;
        }
        linked.resize(cut.len(), byte == b'[');
    }
    (cut, linked)
}

/// Whether an underscore stands here, in a run with a letter or digit directly before
/// and behind it.
fn stays(cut: &[u8], at: usize) -> bool {
    let other = |&&byte: &&u8| byte != b'_';
    let sides = [cut[..at].iter().rfind(other), cut[at..].iter().find(other)];
    cut[at] == b'_' && sides.iter().all(|side| side.is_some_and(u8::is_ascii_alphanumeric))
}

/// What stands before a byte and behind it; all and nothing where it does not come.
fn parted(text: &[u8], byte: u8) -> (&[u8], &[u8]) {
    let at = text.iter().position(|&found| found == byte).unwrap_or(text.len());
    (&text[..at], text.get(at + 1..).unwrap_or_default())
}

/// The line with each target of its links made into another one.
pub fn relinked(line: &[u8], made: impl Fn(&[u8]) -> Vec<u8>) -> Vec<u8> {
    let mut out = Vec::new();
    let mut rest = line;
    while let Some(at) = find(b"](", rest) {
        let Some(length) = find(b")", &rest[at + 2..]) else { break };
        let (target, behind) = rest[at + 2..].split_at(length);
        out.extend(&rest[..at + 2]);
        out.extend(made(target));
        rest = behind;
    }
    out.extend(rest);
    out
}

/// The path of a target, and its fragment with the `#`; none where the target is an
/// address, or names no path.
pub fn path_of(target: &[u8]) -> Option<(&[u8], &[u8])> {
    if target.starts_with(b"mailto:") || holds(b"://", target) {
        return None;
    }
    let hash = target.iter().position(|&byte| byte == b'#').unwrap_or(target.len());
    (hash > 0).then(|| target.split_at(hash))
}

/// The line with its links that name the host and a fragment made bare.
pub fn anchor_self_links(line: &[u8], dir: &[u8], host: &[u8]) -> Vec<u8> {
    relinked(line, |target| match path_of(target) {
        Some((path, fragment)) if !fragment.is_empty() && resolve(path, dir) == host => {
            fragment.to_vec()
        }
        _ => target.to_vec(),
    })
}

/// What stands before the last `/` of a name.
pub fn directory(name: &[u8]) -> &[u8] {
    &name[..name.iter().rposition(|&byte| byte == b'/').unwrap_or(0)]
}

pub fn resolve(path: &[u8], dir: &[u8]) -> Vec<u8> {
    let (root, rest) = path.strip_prefix(b"/").map_or((dir, path), |rest| (&b""[..], rest));
    let mut parts: Vec<&[u8]> = Vec::new();
    for part in root.split(|&byte| byte == b'/').chain(rest.split(|&byte| byte == b'/')) {
        match part {
            b"" | b"." => {}
            b".." => drop(parts.pop()),
            _ => parts.push(part),
        }
    }
    parts.join(&b'/')
}
