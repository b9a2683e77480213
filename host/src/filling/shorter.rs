//! Makes a case that differs short.

use super::case::Case;
use crate::walking::set::Handed;
use crate::walking::shorter::{
    Differs, drop_files, shorten_files, shorten_part, shorten_parts, take,
};

/// Leaves out of a case that differs what can be left out: whole files, and bytes
/// of each text; where it is refused before the walk, bytes of what is handed in.
pub fn shorter(mut case: Case, differs: Differs<Case>) -> Case {
    if case.refusal().is_some() {
        shorten_parts(&mut case, differs);
        return case;
    }
    for _ in 0..3 {
        name_later_files(&mut case, differs);
        drop_files(&mut case, differs);
        shorten_files(&mut case, differs);
        shorten_part(&mut case, 3, differs);
    }
    case
}

/// Makes chains short: a later file in place of the one that a text names.
fn name_later_files(case: &mut Case, differs: Differs<Case>) {
    let count = case.set.files().len();
    for at in 0..=count {
        for from in 0..count {
            for to in (from + 1..count).rev() {
                let Some(tried) = renamed(case, at, from, to) else { break };
                if take(case, tried, differs) {
                    break;
                }
            }
        }
    }
}

/// The case with the first opener in a text, the host's behind those of the files,
/// that names the file `from` naming `to`.
fn renamed(case: &Case, at: usize, from: usize, to: usize) -> Option<Case> {
    let mut files = case.set.own_files();
    let mut host = case.text.clone();
    let [from, to] = [from, to].map(|file| [b"<!--[fragment:", &files[file].0[..]].concat());
    let text = files.get_mut(at).map_or(&mut host, |(_, text)| text);
    let start = text.windows(from.len()).position(|part| part == from)?;
    text.splice(start..start + from.len(), to);
    Some(Case::of(&files, &case.name, &host))
}
