//! Makes a case that differs short.

use super::case::Case;
use crate::walking::set::Handed;
use crate::walking::shorter::{
    Differs, drop_files, drop_lines, shorten_files, shorten_part, shorten_parts,
};

/// Leaves out of a case that differs what can be left out: members, files, bytes of
/// each text, and bytes of the URL; where it is refused before the walk, bytes of what
/// is handed in.
pub fn shorter(mut case: Case, differs: Differs<Case>) -> Case {
    if case.refusal().is_some() {
        shorten_parts(&mut case, differs);
        return case;
    }
    for _ in 0..3 {
        drop_lines(&mut case, 2, differs);
        drop_files(&mut case, differs);
        shorten_files(&mut case, differs);
        shorten_part(&mut case, 3, differs);
    }
    case
}
