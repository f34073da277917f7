//! The code, every number: all characters, all symbols, and numbers that would be one if they were truncated.

use crate::calls;
use crate::report::Report;

pub fn run() -> Report {
    let mut r = Report::default();
    for positive in [false, true] {
        for character in (0..=1100).chain(far()) {
            calls::encode(&mut r, positive, character);
        }
        for symbol in (0..=2048).chain(far()) {
            calls::decode(&mut r, positive, symbol);
        }
    }
    r
}

/// Numbers next to powers of two, also a legal byte or symbol above them.
fn far() -> impl Iterator<Item = u32> {
    let powers = [1 << 12, 1 << 15, 1 << 16, 1 << 24, 1 << 31];
    let near = powers.into_iter().flat_map(|power: u32| (power - 300..=power + 1100).step_by(7).chain([power - 1, power, power + 0x17C]));
    near.chain(u32::MAX - 300..=u32::MAX)
}
