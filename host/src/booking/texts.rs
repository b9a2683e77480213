//! Texts of a book's files: lines of a member, and regions that name files.

use crate::assembling::texts as member;
use crate::filling::texts as host;
/// Writes a file as a member and as a host.
pub struct Writer<'a> {
    pub member: member::Writer<'a>,
    /// What its regions and the lines around them may hold.
    pub host: host::Manner,
}

impl Writer<'_> {
    /// A text with a region for each target, in this order, with a member's lines before
    /// them or behind the first few where it is headed, and here and there between them.
    pub fn text(&mut self, targets: &[String], headed: bool) -> Vec<u8> {
        let random = &mut *self.member.random;
        let first = if random.one_in(4) { random.below(targets.len() + 1) } else { 0 };
        let (before, behind) = targets.split_at(first);
        let mut text = Vec::new();
        if first > 0 || !headed {
            append(&mut text, self.regions(before));
        }
        if headed {
            append(&mut text, self.member.text());
        }
        for targets in behind.chunks(2) {
            append(&mut text, self.regions(targets));
            if headed && self.member.random.one_in(6) {
                append(&mut text, self.member.text());
            }
        }
        text
    }

    fn regions(&mut self, targets: &[String]) -> Vec<u8> {
        let member::Writer { file, names, random, .. } = &mut self.member;
        host::Writer { manner: self.host, file, names, random }.text(targets)
    }
}

/// Puts lines behind a text.
fn append(text: &mut Vec<u8>, lines: Vec<u8>) {
    if text.last().is_some_and(|&byte| byte != b'\n') {
        text.push(b'\n');
    }
    text.extend(lines);
}
