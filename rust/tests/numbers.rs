//! The calls of module `c`, which answer with six numbers.

use jilgyemot::{Answer, c};

/// No answer holds this number.
const UNWRITTEN: u64 = u64::MAX;

#[test]
fn null_pointers_are_empty_slices() {
    for part in [None, Some(&b""[..])] {
        let mut answer = [UNWRITTEN; 6];
        c::scan(part, None, &mut answer);
        assert_eq!(answer, [0; 6]);

        let (mut out, mut work) = ([b'.'; 2], [b'.'; 3]);
        c::fill([part, part, Some(b"h"), part], 1, 0, Some(&mut out), Some(&mut work), &mut answer);
        assert_eq!((answer, out, work), ([1, 0, 0, 0, 0, 0], *b"..", [0; 3]));

        let parts = [part, part, part, Some(&b"u"[..])];
        let (mut out, mut work) = ([b'.'; 2], [b'.'; 3]);
        c::assemble(parts, 1, Some(&mut out), Some(&mut work), &mut answer);
        assert_eq!((answer, out, work), ([0, 1, 0, 0, 0, 0], *b"\n.", [0; 3]));

        let (mut out, mut work) = ([b'.'; 2], [b'.'; 3]);
        c::book(parts, 1, 0, Some(&mut out), Some(&mut work), &mut answer);
        assert_eq!((answer, out, work), ([0, 1, 0, 0, 0, 0], *b"\n.", [0; 3]));

        c::book(parts, 1, 0, None, None, &mut answer);
        assert_eq!(answer, [2, 8, 0, 0, 0, 0]);
    }
}

#[test]
fn numbers_are_read_as_an_answer() {
    let text = Answer::Accepted { text: b"ab", files: 3 };
    assert_eq!(Answer::from_numbers([0, 2, 3, 0, 0, 0], b"ab.."), text);
    assert_eq!(Answer::from_numbers([1, 0, 0, 0, 0, 0], b"ab"), Answer::NoRegion);
    let Answer::Refused(refusal) = Answer::from_numbers([2, 19, 4, 5, 6, 7], b"ab") else {
        panic!("a refusal");
    };
    let (place, second) = (refusal.place(), refusal.second());
    assert_eq!([refusal.number() as usize, place.file, place.line], [19, 4, 5]);
    assert_eq!([second.file, second.line], [6, 7]);
}
