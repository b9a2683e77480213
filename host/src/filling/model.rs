//! The walk of a fill, written from document 01 ("Fill"), on lists of lines. Nothing
//! of the Rust is called here.

use crate::walking::naming::{anchor_self_links, directory};
use crate::walking::reading::{
    Heading, Region, Scan, headings, is_blank, lines, shifted, without_blank_end,
};
use crate::walking::set::File;
use crate::walking::steps::{End, Fault, Place, Step, Walk};

/// The walk of a host through files, as far as it takes in `most` of them.
pub fn walk(files: &[File], name: &[u8], text: &[u8], most: usize) -> Walk {
    let mut walker = Walker::of(files, most);
    let end = match walker.fill(0, text, &mut vec![name]) {
        Ok(Some(text)) => End::Text(text),
        Ok(None) => End::NoRegion,
        Err(end) => end,
    };
    walker.ended(end)
}

/// Makes the steps of one fill after the other.
pub struct Walker<'a> {
    files: &'a [File<'a>],
    most: usize,
    taken: usize,
    deepest: usize,
    steps: Vec<Step>,
}

impl<'a> Walker<'a> {
    /// Before the first fill; all of them together take in `most` files.
    pub fn of(files: &'a [File<'a>], most: usize) -> Self {
        Walker { files, most, taken: 0, deepest: 0, steps: Vec::new() }
    }

    /// The walk of all fills.
    pub fn ended(self, end: End) -> Walk {
        Walk { steps: self.steps, end, deepest: self.deepest }
    }

    /// Fills the text that the chain ends in; none where it has no region.
    pub fn fill(
        &mut self,
        file: usize,
        text: &[u8],
        chain: &mut Vec<&'a [u8]>,
    ) -> Result<Option<Vec<u8>>, End> {
        let scan = Scan::of(text);
        if let Some((number, line)) = scan.problem {
            return Err(End::Fault(Fault::at(number, Place { file, line })));
        }
        if scan.regions.is_empty() {
            return Ok(None);
        }
        let lines = lines(text);
        let own = own_headings(&lines, &scan.regions);
        let mut running: Vec<Vec<u8>> = Vec::new();
        let mut from = 0;
        for region in &scan.regions {
            running.extend(lines[from..=region.open].iter().map(|line| line.to_vec()));
            let opener = Place { file, line: region.open + 1 };
            self.test(&running, opener);
            let above = own.iter().rfind(|heading| heading.line < region.open);
            let named = self.named(region, above.is_some(), opener, chain)?;
            let target = target(region.peer, above, &own);
            running.extend(self.embed(named, target, chain)?);
            self.test(&running, opener);
            from = region.close;
        }
        running.extend(lines[from..].iter().map(|line| line.to_vec()));
        self.test(&running, Place { file, line: 0 });
        Ok(Some(running.join(&b'\n')))
    }

    fn test(&mut self, running: &[Vec<u8>], place: Place) {
        let bytes: usize = running.iter().map(Vec::len).sum();
        self.steps.push(Step::Sized { length: bytes + running.len() - 1, place });
    }

    /// 12, 13, 14, and then the file is taken in: its number.
    fn named(
        &mut self,
        region: &Region,
        headed: bool,
        place: Place,
        chain: &[&[u8]],
    ) -> Result<usize, End> {
        let fault = |number| Err(End::Fault(Fault::at(number, place)));
        if region.peer && !headed {
            return fault(12);
        }
        if chain.contains(&region.path) {
            return fault(13);
        }
        let Some(at) = self.files.iter().position(|(name, _)| *name == region.path) else {
            return fault(14);
        };
        self.steps.push(Step::Taken { place });
        self.taken += 1;
        if self.taken > self.most { Err(End::Unfinished) } else { Ok(at + 1) }
    }

    /// The lines of a file as they stand in the text that the chain ends in.
    fn embed(
        &mut self,
        file: usize,
        target: i32,
        chain: &mut Vec<&'a [u8]>,
    ) -> Result<Vec<Vec<u8>>, End> {
        let (name, text) = self.files[file - 1];
        let host = chain[chain.len() - 1];
        self.deepest = self.deepest.max(chain.len());
        chain.push(name);
        let filled = self.fill(file, text, chain)?;
        chain.pop();
        let filled = filled.as_deref().unwrap_or(text);
        let embedded = embedded_lines(filled);
        let headings = headings(&embedded);
        let lines = shifted(&embedded, &headings, target)
            .map_err(|line| End::Fault(Fault::at(16, Place { file, line })))?;
        Ok(lines.iter().map(|line| anchor_self_links(line, directory(name), host)).collect())
    }
}

fn own_headings<'a>(lines: &[&'a [u8]], regions: &[Region]) -> Vec<Heading<'a>> {
    let mut own = lines.to_vec();
    for region in regions {
        own[region.open..=region.close].fill(b"");
    }
    headings(&own)
}

fn target(peer: bool, above: Option<&Heading>, own: &[Heading]) -> i32 {
    match above {
        Some(heading) => heading.level + i32::from(!peer),
        None => own.iter().map(|heading| heading.level).min().unwrap_or(1),
    }
}

/// The lines of a filled file without its marker lines and without blank ends.
fn embedded_lines(filled: &[u8]) -> Vec<&[u8]> {
    let mut kept: Vec<Option<&[u8]>> = lines(filled).into_iter().map(Some).collect();
    for region in Scan::of(filled).regions {
        kept[region.open] = None;
        kept[region.close] = None;
    }
    let kept: Vec<&[u8]> = kept.into_iter().flatten().collect();
    let kept = without_blank_end(&kept);
    let start = kept.iter().take_while(|line| is_blank(line)).count();
    kept[start..].to_vec()
}
