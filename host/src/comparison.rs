//! What every comparison does: it reads its options, runs, and reports.

use std::time::{Duration, Instant};

/// Where a run ends, and what its texts are made from.
pub struct Options {
    pub cases: Option<u64>,
    pub seconds: Option<u64>,
    pub seed: u64,
}

impl Options {
    /// The program's arguments; none if they cannot be read.
    pub fn read() -> Option<Self> {
        let mut options = Options { cases: None, seconds: None, seed: 1 };
        let mut words = std::env::args().skip(1);
        while let Some(word) = words.next() {
            let number = words.next()?.parse().ok()?;
            match word.as_str() {
                "--cases" => options.cases = Some(number),
                "--seconds" => options.seconds = Some(number),
                "--seed" => options.seed = number,
                _ => return None,
            }
        }
        if options.cases.is_none() && options.seconds.is_none() {
            options.cases = Some(1_000_000);
        }
        Some(options)
    }

    /// Whether a run that starts now goes on after so many cases.
    pub fn more(&self) -> impl Fn(u64) -> bool + use<> {
        let end = self.seconds.map(|seconds| Instant::now() + Duration::from_secs(seconds));
        let most = self.cases;
        move |cases| {
            most.is_none_or(|most| cases < most) && end.is_none_or(|end| Instant::now() < end)
        }
    }
}

/// The main function of the comparison `name`. `run` gives the number of cases,
/// or what is wrong.
pub fn report(name: &str, run: impl FnOnce(&Options) -> Result<u64, String>) {
    let Some(options) = Options::read() else {
        eprintln!("usage: {name} [--cases N] [--seconds N] [--seed S]");
        std::process::exit(2);
    };
    match run(&options) {
        Ok(cases) => println!("compared {cases} cases, seed {}, no mismatch", options.seed),
        Err(wrong) => {
            println!("mismatch, seed {}: {wrong}", options.seed);
            std::process::exit(1);
        }
    }
}
