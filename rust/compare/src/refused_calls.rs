//! Calls that are refused before anything is done, and calls close to them: one thing wrong, and two, so that the order is seen.

use crate::calls;
use crate::expected;
use crate::report::{in_two, Report};
use crate::spans::{any_asked, any_carrying, any_samples, any_sent, shape_of, COMPONENTS, FIELDS, KINDS};
use brazulint::{raw, Request, StreamLine};
use plain::format::Format;
use plain::recording::LIMIT;
use plain::span::Asked;
use random::Random;
use std::ptr::{null, null_mut};

const NUMBERS: [u32; 9] = [0, 1, 2, 3, 4, 5, 257, 65_537, u32::MAX];
const DEPTHS: [u32; 10] = [0, 8, 10, 11, 12, 14, 266, 268, 65_546, u32::MAX];
/// One above the highest known number of each field.
const ABOVE: [u32; 5] = [4, 13, 7, 2, 2];
const LINES: [u32; 10] = [0, 1, 41, 42, 1121, 1122, 1125, 1126, 65_578, u32::MAX];
const SAMPLES: [usize; 7] = [0, 3839, 3840, 3841, 7679, 7680, 7681];
const SYMBOLS: [usize; 10] = [0, 7919, 7920, 7921, 9503, 9504, 9505, 19_007, 19_008, 19_009];

pub fn run() -> Report {
    let mut r = Report::default();
    formats(&mut r);
    nulls(&mut r);
    r.add(in_two(unknown_fields));
    r.add(in_two(sends));
    r.add(in_two(samples));
    r.add(in_two(reads));
    r.add(in_two(starts));
    r.add(in_two(long_recordings));
    r
}

/// Calls `work` with every second of the formats: every number with every depth, every component, and formats of which one field is unknown.
fn each_kind(part: usize, work: impl FnMut(Format)) {
    let plain = NUMBERS.into_iter().flat_map(|number| DEPTHS.map(|depth| Format::plain(number, depth)));
    let carrying = COMPONENTS.into_iter().flat_map(|component| KINDS.map(|kind| kind.carrying(component)));
    let unknown = [KINDS[1], KINDS[4]].into_iter().flat_map(unknown);
    plain.chain(carrying).chain(unknown).skip(part).step_by(2).for_each(work);
}

fn formats(r: &mut Report) {
    for part in 0..2 {
        each_kind(part, |format| {
            calls::lengths(r, format);
            SAMPLES.iter().for_each(|&room| calls::fill_blanking(r, format, room));
        });
    }
}

/// A format with each of its fields unknown, one at a time: 0, one above the known, and numbers that would be the known one if they were cut
/// to eight bits, to sixteen or to thirty-one.
fn unknown(good: Format) -> Vec<Format> {
    let mut all = Vec::new();
    for (field, above) in FIELDS.into_iter().zip(ABOVE) {
        let mut format = good;
        let known = *field(&mut format);
        for number in [0, above, 256 + known, 65_536 + known, (1 << 31) + known, u32::MAX] {
            *field(&mut format) = number;
            all.push(format);
        }
    }
    all
}

/// One field of a format unknown, and all else good: every call that takes a format refuses it with 1, and leaves what it was lent.
fn unknown_fields(part: usize, r: &mut Report) {
    let mut random = Random(0x5B + part as u64);
    for good in KINDS.into_iter().skip(part).step_by(2) {
        for component in COMPONENTS {
            let good = good.carrying(component);
            let [samples, span] = [any_samples(&mut random, good, 42), any_sent(&mut random, good)];
            every_call(r, good, &samples, &span);
            for format in unknown(good) {
                r.holds(|| format!("plain knows {format:?}"), plain::span::lengths(format) == Err((1, 0)));
                every_call(r, format, &samples, &span);
            }
        }
    }
}

/// Each call that takes a format, with what is good for a format of these lengths.
fn every_call(r: &mut Report, format: Format, samples: &[u16], span: &[u16]) {
    let asked = Asked { format, line: 42, positive: false, content: None };
    calls::lengths(r, format);
    calls::fill_blanking(r, format, samples.len());
    let _ = calls::send(r, asked, samples, span.len());
    let _ = calls::read(r, format, span, samples.len());
    calls::judge(r, format, span);
    calls::find(r, format, span, 0);
    calls::next(r, format, span, 0, samples.len());
    calls::way_back(r, format, 1, 1, 42);
}

/// Every format, line and length; samples that may be sent on the line, or not.
fn sends(part: usize, r: &mut Report) {
    let mut random = Random(0x66 + part as u64);
    let [zeros, blanking, of_differences] = [0, 0x100, 0x800].map(|word| [word; 7681]);
    each_kind(part, |format| {
        for line in LINES {
            for count in SAMPLES {
                let room = random.pick(&SYMBOLS);
                let other = random.pick(&SYMBOLS);
                for (given, room) in [
                    (&blanking, room),
                    (&of_differences, room),
                    (&zeros, other),
                    (&blanking, 7920),
                    (&of_differences, 9504),
                    (&zeros, 19_008),
                ] {
                    let positive = random.flip();
                    let asked = any_asked(&mut random, format, line, positive);
                    let _ = calls::send(r, asked, &given[..count], room);
                }
            }
        }
    });
}

/// Good samples with one or two that are just outside what may be sent, or far outside.
fn samples(part: usize, r: &mut Report) {
    let mut random = Random(0x77 + part as u64);
    for kind in KINDS.into_iter().skip(part).step_by(2) {
        for line in [1, 41, 42, 600, 1121, 1122, 1125] {
            let format = any_carrying(&mut random, kind);
            let good = any_samples(&mut random, format, line);
            for value in [0, 3, 4, 15, 16, 0xFF, 0x100, 0x101, 1019, 1020, 0x7FF, 0x800, 0x801, 4079, 4080, 4095, 4096, 0x1100, 65_535] {
                let middle = random.below(good.len());
                for places in [[0, 0], [good.len() - 1; 2], [middle; 2], [middle, 1919], [1920, good.len() - 1]] {
                    let mut given = good.clone();
                    places.iter().for_each(|&at| given[at] = value);
                    let asked = Asked { format, line, positive: random.flip(), content: None };
                    let _ = calls::send(r, asked, &given, shape_of(format).symbols());
                }
            }
        }
    }
}

/// Reading and judging with every length of both buffers; the symbols are noise, zeros or a sent span cut short.
fn reads(part: usize, r: &mut Report) {
    let mut random = Random(0x88 + part as u64);
    let sent = any_sent(&mut random, Format::plain(3, 12));
    let longest = [&sent[..], &[0]].concat();
    let contents = [longest, random.numbers(19_009, 1024), vec![0; 19_009]];
    each_kind(part, |format| {
        for count in SYMBOLS {
            for content in &contents {
                calls::judge(r, format, &content[..count]);
                SAMPLES.iter().for_each(|&room| drop(calls::read(r, format, &content[..count], room)));
            }
        }
    });
}

/// Starts next to every limit, with each length of the rows.
fn starts(part: usize, r: &mut Report) {
    let mut random = Random(0x99 + part as u64);
    let recordings = [vec![], vec![0x17C], random.numbers(8000, 1024), any_sent(&mut random, KINDS[1]), any_sent(&mut random, KINDS[3])];
    each_kind(part, |format| {
        for recording in &recordings {
            let length = recording.len() as u64;
            let far = [1 << 16, 1 << 32, (1 << 32) + 1, 1 << 63, u64::MAX - 7920, u64::MAX - 1, u64::MAX];
            for start in [0, 1, 2, length.saturating_sub(1), length, length + 1, length + 2].into_iter().chain(far) {
                calls::find(r, format, recording, start);
                SAMPLES.iter().for_each(|&room| calls::next(r, format, recording, start, room));
            }
        }
    });
}

/// Recordings of the greatest length and one symbol longer, one with a span at its very end.
fn long_recordings(part: usize, r: &mut Report) {
    let mut random = Random(0xAA + part as u64);
    let format = [Format::plain(1, 12), Format::plain(3, 10)][part];
    let span = any_sent(&mut random, format);
    let samples = shape_of(format).samples();
    for noise in [false, true] {
        let mut recording = if noise { random.numbers(LIMIT + 1, 1024) } else { vec![0; LIMIT + 1] };
        for with_span in [false, true] {
            if with_span {
                recording[LIMIT - span.len()..LIMIT].copy_from_slice(&span);
            }
            for length in [LIMIT, LIMIT + 1] {
                for start in [0, length - span.len(), length, length + 1].map(|start| start as u64) {
                    calls::find(r, format, &recording[..length], start);
                    calls::next(r, format, &recording[..length], start, samples);
                    calls::next(r, format, &recording[..length], start, samples + 1);
                }
            }
        }
    }
}

/// If a number of elements is 0 the pointer may be null.
fn nulls(r: &mut Report) {
    let (from, to) = (null(), null_mut());
    let kind = Format::plain(1, 12);
    let (format, request) = (calls::given(kind), Request::new(StreamLine(42), false));
    let asked = Asked { format: kind, line: 42, positive: false, content: None };
    // SAFETY: every pointer is null with 0 as its number of elements, which the header allows for each of these calls.
    unsafe {
        let sent = expected::send(&plain::span::send(asked, &[], 0));
        r.answer(|| "send of nothing".into(), raw::brazulint4_send(format, request, from, 0, to, 0), sent);
        let filled = expected::number(&plain::span::blanking_row(kind, 0));
        r.answer(|| "fill_blanking of nothing".into(), raw::brazulint4_fill_blanking(format, to, 0), filled);
        let read = expected::read(&plain::read::read(kind, &[], 0));
        r.answer(|| "read of nothing".into(), raw::brazulint4_read(format, from, 0, to, 0), read);
        r.answer(|| "judge of nothing".into(), raw::brazulint4_judge(format, from, 0), read);
        let found = expected::find(plain::recording::find(kind, &[], 0));
        r.answer(|| "find in nothing".into(), raw::brazulint4_find(format, from, 0, 0), found);
        let next = expected::next(&plain::recording::next(kind, &[], 0, 0), 0, 7920, 0);
        r.answer(|| "next in nothing".into(), raw::brazulint4_next(format, from, 0, 0, to, 0), next);
        let split = expected::number(&plain::picture::split(&[], [0, 0]));
        r.answer(|| "split of nothing".into(), raw::brazulint4_split(from, 0, to, 0, to, 0), split);
        let joined = expected::number(&plain::picture::join(&[], &[], 0));
        r.answer(|| "join of nothing".into(), raw::brazulint4_join(from, 0, from, 0, to, 0), joined);
        let crcc = expected::crcc(plain::words::crcc(&[]));
        r.answer(|| "crcc of nothing".into(), raw::brazulint4_crcc(from, 0), crcc);
    }
}
