//! Chains of files, as document 01 defines them for demand 3 ("Order"): told apart by
//! list line and regions. Nothing is filled here; the regions are those of the Rust's
//! `marker::scan`.

use doc_gen::marker;

use crate::walking::set::{File, ascii};

/// How many chains of two or more files start at the list's lines, which are given by
/// their records counted from 0; none where these are over `most`.
pub fn longer_chains(files: &[File], list: &[usize], most: usize) -> Option<usize> {
    let regions: Vec<Vec<usize>> = files.iter().map(|(_, text)| named(files, text)).collect();
    let mut chains: Vec<Vec<usize>> = list.iter().map(|&record| vec![record]).collect();
    let mut longer = 0;
    while let Some(chain) = chains.pop() {
        let last = chain[chain.len() - 1];
        for next in regions[last].iter().filter(|next| !chain.contains(next)) {
            chains.push([&chain[..], &[*next]].concat());
            longer += 1;
            if longer > most {
                return None;
            }
        }
    }
    Some(longer)
}

/// For each region of a text the record that it names, where there is one.
fn named(files: &[File], text: &[u8]) -> Vec<usize> {
    let regions = marker::scan(ascii(text)).fragments;
    let record = |path: &str| files.iter().position(|(name, _)| *name == path.as_bytes());
    regions.iter().filter_map(|region| record(&region.path)).collect()
}
