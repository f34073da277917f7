//! How the time per symbol grows with the length of a recording, also for those made to keep the finder busy.

use crate::cases::given;
use crate::fast::read::judge::Judge;
use crate::fast::read::{recording, tables};
use crate::recordings::{self, spans_of, BEGUN};
use crate::timing::Least;
use outside::spans::shape_of;
use plain::format::Format;
use random::Random;
use std::time::Instant;

/// The lengths: 2^16, doubled five times.
pub const SHORTEST: usize = 16;
pub const LENGTHS: usize = 6;

/// The fewest runs, and the seconds for which runs are repeated.
const TURNS: usize = 4;
const SECONDS: f64 = 3.0;

/// Distances of pairs of K28.5: close together, about as far apart as the symbols that a finder may look ahead, and far.
const DISTANCES: [usize; 6] = [64, 128, 129, 130, 200, 1000];

/// Nanoseconds per symbol at each length.
pub struct Growth {
    pub label: String,
    pub library: [f64; LENGTHS],
    /// In format 1 alone.
    pub fast: Option<[f64; LENGTHS]>,
}

/// The places of all spans: a finder is asked again from the end of each that it has found.
fn places(format: Format, symbols: &[u16], mut find: impl FnMut(&[u16], u64) -> Option<u64>) -> Vec<u64> {
    let span = shape_of(format).symbols() as u64;
    let (mut start, mut places) = (0, Vec::new());
    while let Some(place) = find(symbols, start) {
        places.push(place);
        start = place + span;
    }
    places
}

fn by_library(format: Format, symbols: &[u16]) -> Vec<u64> {
    places(format, symbols, |symbols, start| {
        brazulint::find(given(format), symbols, start).result().expect("a recording that is not too long")
    })
}

fn by_fast(judge: &mut Judge, format: Format, symbols: &[u16]) -> Vec<u64> {
    places(format, symbols, |symbols, start| recording::find(judge, format, symbols, start).expect("a recording that is not too long"))
}

fn by_plain(format: Format, symbols: &[u16]) -> Vec<u64> {
    places(format, symbols, |symbols, start| plain::recording::find(format, symbols, start).expect("a recording that is not too long"))
}

/// The versions in alternation, as long as there are seconds left. The fast one is measured in format 1 alone.
fn grown(label: String, format: Format, symbols: &[u16]) -> Growth {
    let tables = tables();
    let mut judge = Judge::new(&tables);
    let expected = by_plain(format, symbols);
    assert!(by_library(format, symbols) == expected, "{label}: the library");
    assert!(by_fast(&mut judge, format, symbols) == expected, "{label}: the fast version");

    let [mut library, mut fast] = [[Least::NONE; LENGTHS]; 2];
    let (begun, mut turns) = (Instant::now(), 0);
    while turns < TURNS || begun.elapsed().as_secs_f64() < SECONDS {
        turns += 1;
        for k in 0..LENGTHS {
            let part = &symbols[..1 << SHORTEST << k];
            // The shorter ones more often: a run of theirs is soon over, and easily disturbed.
            for _ in 0..1 << (LENGTHS - 1 - k).min(2) {
                library[k].time(|| _ = by_library(format, part));
                if format.number == 1 {
                    fast[k].time(|| _ = by_fast(&mut judge, format, part));
                }
            }
        }
    }
    let of_symbol = |times: [Least; LENGTHS]| std::array::from_fn(|k| times[k].seconds() * 1e9 / (1 << SHORTEST << k) as f64);
    let growth = Growth { label, library: of_symbol(library), fast: (format.number == 1).then(|| of_symbol(fast)) };
    report(&growth);
    growth
}

fn report(growth: &Growth) {
    let versions = [("library", Some(growth.library)), ("fast", growth.fast)];
    let of = |(version, times): (&str, Option<[f64; LENGTHS]>)| {
        times.map(|times| format!("{version} {:.2} {:.2}", times[0], times[LENGTHS - 1]))
    };
    let times: Vec<String> = versions.into_iter().filter_map(of).collect();
    eprintln!("finding, {}, ns a symbol of 2^16 and of 2^21: {}", growth.label, times.join(", "));
}

/// Those without spans of their own, in format 1.
fn of_symbols() -> Vec<Growth> {
    let kinds = [
        ("noise", recordings::noise(&mut Random(6))),
        ("noise without K28.5", recordings::noise_without_commas(&mut Random(6))),
        ("K28.5 in both forms by turns", recordings::commas()),
        ("K28.5 K28.5 byte", recordings::false_starts()),
        ("K28.5 K28.5 and ten bytes, a SAV", recordings::beginnings(spans_of(1), 12)),
    ];
    kinds.into_iter().map(|(label, symbols)| grown(label.into(), spans_of(1), &symbols)).collect()
}

/// Those that are made of spans or of their beginnings.
fn of_spans(format: Format) -> Vec<Growth> {
    let pairs = DISTANCES.map(|count| (format!("pairs of K28.5 every {count} symbols"), recordings::beginnings(format, count)));
    let spans = [
        ("spans as sent".into(), recordings::sent_spans(format)),
        ("spans with a special character 30 before the end".into(), recordings::late_special_characters(format)),
        ("spans with a wrong last fill word".into(), recordings::wrong_last_fills(format)),
        (format!("spans with ancillary bytes, each after {BEGUN} symbols of another"), recordings::begun_twice(format)),
        ("the same with a wrong picture word".into(), recordings::begun_twice_and_refused(format)),
    ];
    let all = pairs.into_iter().chain(spans);
    all.map(|(label, symbols)| grown(format!("{label}, format {}", format.number), format, &symbols)).collect()
}

pub fn measure() -> Vec<Growth> {
    let spans = (1..=3).map(spans_of).flat_map(of_spans);
    of_symbols().into_iter().chain(spans).collect()
}
