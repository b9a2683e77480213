//! L, B and buffer sizes for a case, from its own running texts and counts.

use super::steps::{Step, Walk};
use crate::random::Random;

#[derive(Clone, Copy, PartialEq, Debug)]
pub struct Limits {
    pub limit: u64,
    pub allowance: u32,
    pub out: usize,
    pub work: usize,
}

/// The largest L.
pub const MOST: u64 = 1_048_576;

/// Limits that are none, some of them good ones in fewer bits.
const BAD: [u64; 7] = [0, 0, MOST + 1, (1 << 32) + 1, 1 << 63, u64::MAX - 1, u64::MAX];

impl Limits {
    /// Buffers that are just large enough, where work has to hold so many texts and
    /// two more.
    pub fn of(limit: usize, allowance: u32, texts: usize) -> Self {
        let limit = limit.clamp(1, MOST as usize);
        Limits { limit: limit as u64, allowance, out: limit, work: (texts + 2) * limit }
    }

    /// L, B and buffers as large or larger, where work has to hold so many texts and two
    /// more.
    pub fn larger(&self, texts: usize, random: &mut Random) -> Self {
        let limit = self.limit as usize + random.pick(&[0, 1, 100, self.limit as usize]);
        let allowance = self.allowance.saturating_add(random.pick(&[0, 1, 1 << 8, u32::MAX]));
        let least = Limits::of(limit, allowance, texts);
        let (out, work) = (least.out.max(self.out), least.work.max(self.work));
        Limits { out, work, ..least }.with_room(random)
    }

    fn with_room(mut self, random: &mut Random) -> Self {
        self.out += random.below(100);
        self.work += random.pick(&[0, 1, 7, 64, self.out]);
        self
    }
}

/// The lengths of the running texts that a walk tests, and how many files it
/// takes in.
pub struct Needs {
    lengths: Vec<usize>,
    taken: usize,
}

impl Needs {
    pub fn of(walk: &Walk) -> Self {
        let sized = walk.steps.iter().filter_map(|step| match step {
            Step::Sized { length, .. } => Some(*length),
            Step::Taken { .. } => None,
        });
        Needs { lengths: sized.collect(), taken: walk.taken() }
    }

    pub fn longest(&self) -> usize {
        self.lengths.iter().copied().max().unwrap_or(0)
    }

    pub fn taken(&self) -> u32 {
        self.taken as u32
    }

    fn some_length(&self, random: &mut Random) -> usize {
        self.lengths[random.below(self.lengths.len())]
    }
}

/// Limits with room to spare, just enough, one short of a running text, at one, one
/// short of the files taken in, random ones, and buffers that are too short. Where
/// no text is tested all limits are alike, and two of them will do.
pub fn random_limits(needs: &Needs, texts: usize, random: &mut Random) -> Vec<Limits> {
    let (longest, taken) = (needs.longest(), needs.taken());
    if needs.lengths.is_empty() {
        let limits = Limits::of(random.within(1, 40), random.pick(&[0, 1, u32::MAX]), texts);
        return vec![limits.with_room(random), too_short(limits, random)];
    }
    let more = taken + random.within(1, 3) as u32;
    let ample = random.pick(&[taken, more, 1 << 8, 1 << 16, 1 << 31, u32::MAX]).max(taken);
    let some = needs.some_length(random);
    let fewer = random.below(taken as usize + 1) as u32;
    let short = random.pick(&[0, fewer, taken.saturating_sub(1)]);
    let below = random.within(1, longest.max(1));
    let spare = longest + random.within(1, 100);
    vec![
        Limits::of(spare, ample, texts).with_room(random),
        Limits::of(longest, taken, texts),
        Limits::of(some.saturating_sub(1), ample, texts),
        Limits::of(random.pick(&[some, below, 1]), random.pick(&[taken, fewer]), texts),
        Limits::of(longest, short, texts),
        Limits::of(longest.saturating_sub(1), taken.saturating_sub(1), texts),
        too_short(Limits::of(some, taken, texts), random),
    ]
}

/// Refusal 8, now and then with nothing wrong.
fn too_short(mut limits: Limits, random: &mut Random) -> Limits {
    let limit = limits.limit as usize;
    match random.below(9) {
        0 | 1 => limits.limit = random.pick(&BAD),
        2 | 3 => limits.out = limit - 1,
        4 => limits.out = 0,
        5 => limits.work -= 1,
        6 => limits.work = random.pick(&[0, limit, limits.work - limit]),
        7 => return limits.with_room(random),
        _ if random.one_in(2_000) => return Limits::of(MOST as usize, 1, 2),
        _ => limits.work = random.below(limits.work),
    }
    limits
}

/// Every limit at or one short of a running text, up to the 40 shortest, and every
/// allowance up to the files taken in, or to 8.
pub fn all_limits(needs: &Needs, texts: usize) -> Vec<Limits> {
    let mut lengths = needs.lengths.clone();
    lengths.push(needs.longest() + 1);
    lengths.sort_unstable();
    lengths.dedup();
    lengths.truncate(40);
    let mut limits = Vec::new();
    for length in lengths {
        for allowance in 0..=needs.taken().min(8) {
            limits.push(Limits::of(length, allowance, texts));
            limits.push(Limits::of(length.saturating_sub(1), allowance, texts));
        }
    }
    limits
}

/// The largest L and the next number, 0, and each buffer one byte short.
pub fn edge_limits(texts: usize) -> Vec<Limits> {
    let most = Limits::of(MOST as usize, 0, texts);
    let past = Limits { limit: MOST + 1, allowance: 0, out: most.out + 1, work: most.work * 2 };
    let (out, work) = (most.out - 1, most.work - 1);
    vec![most, past, Limits { limit: 0, ..most }, Limits { out, ..most }, Limits { work, ..most }]
}

/// Each of them once.
pub fn distinct(limits: Vec<Limits>) -> Vec<Limits> {
    let mut found: Vec<Limits> = Vec::new();
    for limits in limits {
        if !found.contains(&limits) {
            found.push(limits);
        }
    }
    found
}
