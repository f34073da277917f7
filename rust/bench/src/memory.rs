//! The speed of memory, for scale: rows copied, and the symbols of a recording added up.

use crate::recordings::noise;
use crate::tables::grouped;
use crate::timing::Least;
use random::Random;
use std::hint::black_box;

/// Samples copied, `times` times in one run; millions a second.
fn copied(samples: usize, times: usize, turns: usize) -> f64 {
    let (from, mut to, mut least) = (Random(2).numbers(samples, 65_536), vec![0; samples], Least::NONE);
    for _ in 0..turns {
        least.time(|| (0..times).for_each(|_| black_box(&mut to).copy_from_slice(black_box(&from))));
    }
    least.rate(samples * times)
}

#[inline(never)]
fn sum(symbols: &[u16]) -> u16 {
    symbols.iter().fold(0, |sum: u16, symbol| sum.wrapping_add(*symbol))
}

fn added() -> f64 {
    let (symbols, mut least) = (noise(&mut Random(4)), Least::NONE);
    for _ in 0..400 {
        least.time(|| _ = black_box(sum(black_box(&symbols))));
    }
    least.rate(symbols.len())
}

pub fn measure() -> String {
    let [row, picture, sum] = [copied(3840, 64, 2_000), copied(3840 * 2160, 1, 100), added()].map(grouped);
    format!("For scale, in M/s: samples of one row copied again and again {row}, of a whole picture {picture}; symbols of the noise added {sum}.")
}
