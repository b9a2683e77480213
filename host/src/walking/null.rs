//! Calls in which what is empty is a null pointer, or is not.

use crate::answer::Answer;

/// A call with L at 1: what is handed in, output and work, each there or null.
pub type OrNull = fn([Option<&[u8]>; 4], out: Option<&mut [u8]>, work: Option<&mut [u8]>) -> Answer;

/// All parts are empty but one, which is not to be empty. What the call has to answer
/// then and what it leaves in the output is said; without that part it is 6, and
/// without buffers 8. The answer is the number of cases, or what is wrong.
pub fn compare_null(call: OrNull, named: usize, said: (Answer, [u8; 2])) -> Result<u64, String> {
    let mut cases = 0;
    for chosen in 0..8 {
        let mut given: Vec<Option<&[u8]>> =
            (0..3).map(|at| (chosen >> at & 1 == 1).then_some(&b""[..])).collect();
        given.insert(named, Some(b"u"));
        let given: [Option<&[u8]>; 4] = std::array::from_fn(|at| given[at]);
        let mut nameless = given;
        nameless[named] = None;
        let (mut out, mut work) = ([0xA5; 2], [0xA5; 2]);
        let full = call(given, Some(&mut out), Some(&mut work));
        let [short, nameless] = [given, nameless].map(|given| call(given, None, None));
        let same = (full, out) == said
            && work == [0, 0]
            && short == [2, 8, 0, 0, 0, 0]
            && nameless == [2, 6, 0, 0, 0, 0];
        if !same {
            return Err(format!("{given:?}: {full:?}, {out:?}, {work:?}, {short:?}, {nameless:?}"));
        }
        cases += 3;
    }
    Ok(cases)
}
