//! A stored case of a call with a walk.

use jilgyemot_host::random::Random;
use jilgyemot_host::walking::expected::Expected;
use jilgyemot_host::walking::limits::{Limits, Needs, random_limits};
use jilgyemot_host::walking::set::Handed;

use crate::Cases;

/// The bytes of the four parts together.
const MOST_GIVEN: usize = 16_384;

/// An output and a work buffer.
const MOST_BUFFER: usize = 65_536;

/// Header numbers have six digits.
const MOST_NUMBER: u64 = 999_999;

/// Whether there is memory for a case, and its numbers have six digits.
pub fn is_small(case: &impl Handed, limits: &Limits) -> bool {
    given_length(case) <= MOST_GIVEN
        && limits.out.max(limits.work) <= MOST_BUFFER
        && limits.limit.max(u64::from(limits.allowance)) <= MOST_NUMBER
}

fn given_length(case: &impl Handed) -> usize {
    case.parts().iter().map(|part| part.len()).sum()
}

/// Four rows of two numbers, and what is handed in. To be printed are the six numbers
/// and, if it was accepted, the text and an LF.
pub fn add(cases: &mut Cases, case: &impl Handed, limits: &Limits, expected: &Expected) {
    assert!(is_small(case, limits));
    let Some(answer) = expected.answer(limits) else { return };
    let &Limits { limit, allowance, out, work } = limits;
    let [index, contents, third, fourth] = case.parts().map(|part| part.len());
    let header = format!(
        "{index:06} {contents:06}\n{third:06} {fourth:06}\n\
         {limit:06} {allowance:06}\n{out:06} {work:06}\n"
    );
    cases.stdin.extend(header.bytes());
    cases.stdin.extend(case.parts().concat());
    cases.stdout.extend(answer.map(|number| number.to_string()).join("\t").bytes());
    cases.stdout.push(b'\n');
    if answer[0] == 0 {
        cases.stdout.extend(expected.written(&answer));
        cases.stdout.push(b'\n');
    }
}

/// How many generated cases are stored, and the most bytes that one has.
pub struct Sample {
    pub count: usize,
    pub most: usize,
}

/// Each at three of its limits, or at two where no text is tested. `limited` makes other
/// limits of those.
pub fn add_generated<C: Handed>(
    cases: &mut Cases,
    sample: Sample,
    mut next: impl FnMut() -> C,
    expected: impl Fn(&C) -> Expected,
    limited: impl Fn(Limits) -> Limits,
) {
    let mut random = Random::new(1);
    let mut stored = 0;
    while stored < sample.count {
        let case = next();
        let expected = expected(&case);
        let limits = random_limits(&Needs::of(&expected.walk), expected.texts, &mut random);
        let mut limits: Vec<Limits> = limits.into_iter().map(&limited).collect();
        limits.retain(|limits| is_small(&case, limits));
        if given_length(&case) <= sample.most {
            for _ in 0..limits.len().min(3) {
                add(cases, &case, &limits.remove(random.below(limits.len())), &expected);
            }
            stored += 1;
        }
    }
}
