//! Makes a case that differs short: leaves out what can be left out.

use super::set::Handed;
use crate::shrink::shrink;

pub type Differs<'a, C> = &'a mut dyn FnMut(&C) -> bool;

/// Takes another case in place of this one if that differs too.
pub fn take<C>(case: &mut C, other: C, differs: Differs<C>) -> bool {
    let taken = differs(&other);
    if taken {
        *case = other;
    }
    taken
}

/// Leaves out bytes of all that is handed in.
pub fn shorten_parts<C: Handed>(case: &mut C, differs: Differs<C>) {
    (0..4).for_each(|part| shorten_part(case, part, differs));
}

/// Leaves out bytes of one of the four parts.
pub fn shorten_part<C: Handed>(case: &mut C, part: usize, differs: Differs<C>) {
    shrink(case.parts()[part].to_vec(), |bytes| {
        let mut tried = case.clone();
        *tried.parts_mut()[part] = bytes.to_vec();
        take(case, tried, differs)
    });
}

/// Leaves out lines of one of the four parts.
pub fn drop_lines<C: Handed>(case: &mut C, part: usize, differs: Differs<C>) {
    let count = case.parts()[part].split_inclusive(|&byte| byte == b'\n').count();
    for at in (0..count).rev() {
        let mut tried = case.clone();
        let mut lines: Vec<_> = case.parts()[part].split_inclusive(|&byte| byte == b'\n').collect();
        lines.remove(at);
        *tried.parts_mut()[part] = lines.concat();
        take(case, tried, differs);
    }
}

pub fn drop_files<C: Handed>(case: &mut C, differs: Differs<C>) {
    for at in (0..case.set().files().len()).rev() {
        let mut files = case.set().own_files();
        files.remove(at);
        let tried = case.with_files(&files);
        take(case, tried, differs);
    }
}

/// Leaves out bytes of the files.
pub fn shorten_files<C: Handed>(case: &mut C, differs: Differs<C>) {
    for at in 0..case.set().files().len() {
        let mut files = case.set().own_files();
        shrink(files[at].1.clone(), |text| {
            files[at].1 = text.to_vec();
            let tried = case.with_files(&files);
            take(case, tried, differs)
        });
    }
}
