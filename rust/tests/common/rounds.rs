//! Seeds and time of a test. `SEED` is the first seed, 1 by default, and a failure prints the one that it had; `SOAK` is the time in seconds
//! of each random test, where the default is too short.

use std::panic::{catch_unwind, resume_unwind, AssertUnwindSafe};
use std::time::{Duration, Instant};

use super::random::Random;

fn variable(name: &str) -> Option<u64> {
    let text = std::env::var(name).ok()?;
    Some(text.parse().unwrap_or_else(|_| panic!("{name}={text} is not a number")))
}

/// One round, with the first seed.
pub fn once(round: impl FnOnce(&mut Random)) {
    seeded(variable("SEED").unwrap_or(1), round);
}

fn seeded(seed: u64, round: impl FnOnce(&mut Random)) {
    if let Err(cause) = catch_unwind(AssertUnwindSafe(|| round(&mut Random::new(seed)))) {
        eprintln!("SEED={seed}");
        resume_unwind(cause);
    }
}

/// Runs a round again and again, each time with the next seed, so many times at least and until the time is over. Gives the number of rounds.
pub fn rounds(seconds: u64, least: u64, mut round: impl FnMut(&mut Random)) -> u64 {
    let first = variable("SEED").unwrap_or(1);
    let time = Duration::from_secs(variable("SOAK").unwrap_or(seconds));
    let begin = Instant::now();
    let mut seed = first;
    while seed - first < least || begin.elapsed() < time {
        seeded(seed, &mut round);
        seed += 1;
    }
    seed - first
}
