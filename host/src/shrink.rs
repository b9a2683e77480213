//! Makes a text that differs short.

/// Leaves out of a text that differs what can be left out, in a long text not
/// byte by byte. The last text for which `differs` holds is the shortest found.
pub fn shrink(mut text: Vec<u8>, mut differs: impl FnMut(&[u8]) -> bool) {
    let mut part = text.len();
    while part > text.len() / 2_000 {
        let mut at = 0;
        while at < text.len() {
            let mut shorter = text.clone();
            shorter.drain(at..(at + part).min(text.len()));
            if differs(&shorter) {
                text = shorter;
            } else {
                at += part;
            }
        }
        part /= 2;
    }
}
