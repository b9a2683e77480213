//! Regions and headings of a text, written from document 01 ("Marker scan", "Headings
//! and levels", "Assembly and book"). Nothing of the Rust is called here.

/// What stands between LFs. The scan leaves out a CR at a line's end and an empty
/// last line, which changes nothing here, as it trims what it compares.
pub fn lines(text: &[u8]) -> Vec<&[u8]> {
    text.split(|&byte| byte == b'\n').collect()
}

fn is_space(byte: u8) -> bool {
    matches!(byte, 0x09..=0x0D | 0x20)
}

pub fn is_blank(line: &[u8]) -> bool {
    line.iter().all(|&byte| is_space(byte))
}

fn trimmed_start(line: &[u8]) -> &[u8] {
    &line[line.iter().take_while(|&&byte| is_space(byte)).count()..]
}

pub fn trimmed(line: &[u8]) -> &[u8] {
    let line = trimmed_start(line);
    &line[..line.len() - line.iter().rev().take_while(|&&byte| is_space(byte)).count()]
}

pub fn find(part: &[u8], line: &[u8]) -> Option<usize> {
    line.windows(part.len()).position(|window| window == part)
}

pub fn holds(part: &[u8], line: &[u8]) -> bool {
    find(part, line).is_some()
}

/// The three bytes of a fence, where the line's trimmed start has them.
fn fence(line: &[u8]) -> Option<&[u8]> {
    let start = trimmed_start(line).get(..3)?;
    (start == b"```" || start == b"~~~").then_some(start)
}

/// Its marker lines, counted from 0.
pub struct Region<'a> {
    pub open: usize,
    pub close: usize,
    pub path: &'a [u8],
    pub peer: bool,
}

/// The regions of a text, and the number and line of its first refusal of 9 to 11.
pub struct Scan<'a> {
    pub regions: Vec<Region<'a>>,
    pub problem: Option<(u64, usize)>,
}

impl<'a> Scan<'a> {
    pub fn of(text: &'a [u8]) -> Self {
        let mut scan = Scan { regions: Vec::new(), problem: None };
        let mut in_fence = false;
        let mut opened: Option<(usize, &[u8], bool)> = None;
        for (at, line) in lines(text).into_iter().enumerate() {
            if fence(line).is_some() {
                in_fence = !in_fence;
            } else if in_fence || !holds(b"<!--[", line) {
                continue;
            } else if let Some((open, path, peer)) = opened
                && trimmed(line) == b"<!--[/]-->"
            {
                scan.regions.push(Region { open, close: at, path, peer });
                opened = None;
            } else if let Some((path, peer)) = opening(line) {
                match opened {
                    Some(_) => scan.found(9, at + 1),
                    None => opened = Some((at, path, peer)),
                }
            } else if holds(b"<!--[fragment:", line) {
                scan.found(10, at + 1);
            }
        }
        if let Some((open, ..)) = opened {
            scan.found(11, open + 1);
        }
        scan
    }

    fn found(&mut self, number: u64, line: usize) {
        self.problem = self.problem.or(Some((number, line)));
    }
}

/// The path of an opener alone on its line, and whether it says peer.
fn opening(line: &[u8]) -> Option<(&[u8], bool)> {
    let spec = trimmed(line).strip_prefix(b"<!--[fragment:")?.strip_suffix(b"]-->")?;
    let (path, peer) = spec.strip_suffix(b":peer").map_or((spec, false), |path| (path, true));
    let good = !path.is_empty() && !path.contains(&b':') && !holds(b"]-->", path);
    good.then_some((path, peer))
}

/// Its line counts from 0.
#[derive(Clone, Copy)]
pub struct Heading<'a> {
    pub line: usize,
    pub level: i32,
    pub text: &'a [u8],
}

pub fn headings<'a>(lines: &[&'a [u8]]) -> Vec<Heading<'a>> {
    headings_and_quoted(lines).0
}

/// The headings, and for each line whether it is quoted.
pub fn headings_and_quoted<'a>(lines: &[&'a [u8]]) -> (Vec<Heading<'a>>, Vec<bool>) {
    let mut found = Vec::new();
    let mut quoted = vec![false; lines.len()];
    let mut quoting: Option<&[u8]> = None;
    let mut in_comment = false;
    for (at, line) in lines.iter().enumerate() {
        if let Some(marks) = quoting {
            quoted[at] = true;
            if fence(line) == Some(marks) {
                quoting = None;
            }
        } else if let Some(marks) = fence(line) {
            quoted[at] = true;
            quoting = Some(marks);
        } else if in_comment {
            in_comment = !holds(b"-->", line);
        } else if let Some(rest) = trimmed_start(line).strip_prefix(b"<!--")
            && !holds(b"-->", rest)
        {
            in_comment = true;
        } else if let Some((level, text)) = heading(line) {
            found.push(Heading { line: at, level, text });
        }
    }
    (found, quoted)
}

/// Level and text of a heading line, wherever it stands.
fn heading(line: &[u8]) -> Option<(i32, &[u8])> {
    let level = line.iter().take_while(|&&byte| byte == b'#').count();
    let headed = (1..=6).contains(&level) && line.get(level) == Some(&b' ');
    headed.then(|| (level as i32, trimmed(&line[level..])))
}

/// The lines without hand-written contents.
pub fn without_contents<'a>(lines: Vec<&'a [u8]>) -> Vec<&'a [u8]> {
    let mut within = false;
    let mut kept = Vec::new();
    for line in lines {
        within = is_contents(line) || within && !line.starts_with(b"#");
        if !within {
            kept.push(line);
        }
    }
    kept
}

fn is_contents(line: &[u8]) -> bool {
    let lower = heading(line).map(|(_, text)| text.to_ascii_lowercase());
    matches!(lower.as_deref(), Some(b"contents" | b"table of contents"))
}

/// The lines without blank ones at the end.
pub fn without_blank_end<'a, 'b>(lines: &'b [&'a [u8]]) -> &'b [&'a [u8]] {
    let blank = lines.iter().rev().take_while(|line| is_blank(line)).count();
    &lines[..lines.len() - blank]
}

/// The lines with these headings moved so that the shallowest comes to be at the
/// target, or the number of the line that cannot.
pub fn shifted(lines: &[&[u8]], headings: &[Heading], target: i32) -> Result<Vec<Vec<u8>>, usize> {
    let mut moved: Vec<Vec<u8>> = lines.iter().map(|line| line.to_vec()).collect();
    let shallowest = headings.iter().map(|heading| heading.level).min();
    let shift = shallowest.map_or(0, |level| target - level);
    for heading in headings {
        let level = heading.level + shift;
        if level > 6 {
            return Err(heading.line + 1);
        }
        moved[heading.line] = [&b"######"[..level as usize], b" ", heading.text].concat();
    }
    Ok(moved)
}
