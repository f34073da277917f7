//! Random calls with new seeds until the time is up.

use crate::random_calls;
use std::time::{Duration, Instant, SystemTime, UNIX_EPOCH};

const CALLS_OF_A_ROUND: u64 = 400_000;

/// Whether all rounds were the same. A round is printed with its seed, with which it can be run again.
pub fn run(minutes: u64) -> bool {
    let begun = Instant::now();
    let mut seed = SystemTime::now().duration_since(UNIX_EPOCH).map_or(0, |since| since.as_nanos() as u64 % 1_000_000_000);
    let mut same = true;
    while begun.elapsed() < Duration::from_secs(60 * minutes) {
        same &= random_calls::run(seed, CALLS_OF_A_ROUND).print("night", Some(seed));
        seed += 1;
    }
    same
}
