//! Paths: resolved, compared with names, and the directory of a name.

use doc_gen::assembly;

use super::{AROUND, Outcome, lent, library, one, same, same_bytes};

pub fn check(path: &str, dir: &str) -> Outcome {
    let resolved = assembly::resolve(path, dir);
    let full = resolved.len();
    let mut count = check_parent(path)? + check_parent(dir)?;
    for size in [full + 3, full, full.saturating_sub(1), 0] {
        count += check_written(path, dir, &resolved, size)?;
    }
    for name in near(path, dir, &resolved) {
        let leaf = library::resolves(path.as_bytes(), dir.as_bytes(), &name);
        let what = format!("resolves to {}", name.escape_ascii());
        count += same(&what, one(u64::from(resolved.as_bytes() == name)), leaf)?;
    }
    Ok(count)
}

fn check_parent(name: &str) -> Outcome {
    let rust = name.rfind('/').unwrap_or(0);
    same("the directory's length", one(rust as u64), library::parent(name.as_bytes()))
}

/// An output of some size, with bytes around it.
fn check_written(path: &str, dir: &str, resolved: &str, size: usize) -> Outcome {
    let mut lent = lent(size);
    let mut expected = lent.clone();
    if resolved.len() <= size {
        expected[AROUND..][..resolved.len()].copy_from_slice(resolved.as_bytes());
    }
    let out = &mut lent[AROUND..][..size];
    let answer = library::resolve(path.as_bytes(), dir.as_bytes(), out);
    Ok(same("the resolved path's length", one(resolved.len() as u64), answer)?
        + same_bytes(&format!("an output of {size}, with {AROUND} around it"), &expected, &lent)?)
}

/// The resolved path, and names that are near it.
fn near(path: &str, dir: &str, resolved: &str) -> Vec<Vec<u8>> {
    let all = resolved.as_bytes();
    let (first, rest) = resolved.split_once('/').unwrap_or((resolved, ""));
    let (start, last) = resolved.rsplit_once('/').unwrap_or(("", resolved));
    let mut changed = all.to_vec();
    if let Some(byte) = changed.get_mut(all.len() / 2) {
        *byte ^= 1;
    }
    let mut names = vec![
        all.to_vec(),
        all[..all.len().saturating_sub(1)].to_vec(),
        all[all.len().min(1)..].to_vec(),
        [b"/", all].concat(),
        [all, b"/"].concat(),
        [b"a", all].concat(),
        [all, b"a"].concat(),
        changed,
        resolved.replacen('/', "", 1).into_bytes(),
        resolved.replacen('/', "//", 1).into_bytes(),
        first.into(),
        rest.into(),
        start.into(),
        last.into(),
        path.into(),
        dir.into(),
        format!("{dir}/{path}").into(),
    ];
    names.sort();
    names.dedup();
    names
}
