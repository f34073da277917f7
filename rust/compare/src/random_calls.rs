//! Random calls of all kinds: mostly cheap ones, some with spans, a few with recordings.

use crate::calls;
use crate::damage::DAMAGES;
use crate::reading::{read_damaged, Met};
use crate::recordings::{in_pieces, search};
use crate::report::{in_two, Report};
use crate::spans::{any_asked, any_kind, any_line, any_samples, shape_of, FIELDS};
use plain::format::Format;
use plain::words::words_of;
use random::Random;

pub const SEED: u64 = 20_210_347;
pub const CALLS: u64 = 150_000;

/// At least `calls` calls, half of them in each thread.
pub fn run(seed: u64, calls: u64) -> Report {
    in_two(|part, r| {
        let mut random = Random(seed.wrapping_mul(2).wrapping_add(part as u64));
        // The first numbers of neighbouring seeds are alike.
        for _ in 0..20 {
            random.next();
        }
        while r.calls < calls.div_ceil(2) {
            any_call(r, &mut random);
        }
    })
}

fn any_call(r: &mut Report, random: &mut Random) {
    r.context = format!("generator at {}", random.0);
    match random.below(2000) {
        0..=1 => {
            let (format, symbols) = (any_kind(random), random.below(50_000));
            search(r, random, format, symbols);
        }
        2 => {
            let (format, symbols, longest) = (any_kind(random), random.below(50_000), 2 + random.below(30_000));
            in_pieces(r, random, format, symbols, longest);
        }
        3..=20 => damaged_span(r, random),
        21..=35 => sent_span(r, random),
        36..=60 => any_rows(r, random),
        61..=200 => wrong_lengths(r, random),
        _ => single_number(r, random),
    }
}

/// A number: small, next to a limit, or any.
fn number(random: &mut Random) -> u32 {
    let limits: [u32; 20] =
        [0, 1, 10, 12, 42, 256, 268, 1023, 1024, 1121, 1125, 1920, 2160, 3840, 4095, 4096, 7920, 65_535, 65_536, 65_578];
    match random.below(4) {
        0 => random.pick(&limits).wrapping_add(random.within(0, 2)).wrapping_sub(1),
        1 => random.within(0, 4096),
        2 => random.within(0, 65_535),
        _ => (random.next() << 16 ^ random.next()) as u32,
    }
}

fn single_number(r: &mut Report, random: &mut Random) {
    let positive = random.flip();
    match random.below(9) {
        0 => calls::encode(r, positive, number(random) % 400),
        1 => calls::decode(r, positive, number(random) % 2048),
        2 => calls::encode(r, positive, number(random)),
        3 => calls::decode(r, positive, number(random)),
        4 => {
            // One bit or two, of which one may be above the twelve.
            let wrong = 1 << random.below(13) ^ random.within(0, 1) << random.below(13);
            calls::repair(r, random.pick(&[0x800, 0x9D0, 0xAB0, 0xB60]) ^ wrong);
        }
        5 => calls::line_words(r, number(random)),
        6 => any_line_words(r, random),
        7 => calls::place(r, number(random), number(random)),
        _ => calls::carries_picture(r, number(random)),
    }
}

fn any_line_words(r: &mut Report, random: &mut Random) {
    let [ln0, ln1] = words_of(random.within(0, 2047)).map(u32::from);
    match random.below(4) {
        0 => calls::read_line_words(r, ln0, ln1),
        1 => calls::read_line_words(r, ln0 ^ 1 << random.below(13), ln1),
        2 => calls::read_line_words(r, ln0, ln1 ^ 1 << random.below(13)),
        _ => calls::read_line_words(r, number(random), number(random)),
    }
}

fn any_rows(r: &mut Report, random: &mut Random) {
    let length = |random: &mut Random, good: usize| if random.seldom(4) { random.below(4000) } else { good };
    let lengths = [length(random, 3840), length(random, 1920), length(random, 1920)];
    let [row, first, second] = lengths.map(|count| random.numbers(count, 65_536));
    match random.below(3) {
        0 => calls::split(r, &row, [first.len(), second.len()]),
        1 => calls::join(r, &first, &second, row.len()),
        _ => {
            let (count, limit) = (random.below(2000), random.pick(&[4096, 4096, 4097]));
            calls::crcc(r, &random.numbers(count, limit));
        }
    }
}

/// A format of which a field is often any number, a small one, or one that is known if it is cut to eight bits or sixteen.
fn any_format(random: &mut Random) -> Format {
    let mut format = any_kind(random);
    for field in FIELDS {
        if random.seldom(15) {
            let known = *field(&mut format);
            let numbers = [number(random), random.within(0, 13), 256 + known, 65_536 + known];
            *field(&mut format) = random.pick(&numbers);
        }
    }
    format
}

/// Formats and lengths, of which one is often wrong; mostly with short buffers.
fn wrong_lengths(r: &mut Report, random: &mut Random) {
    let format = any_format(random);
    let counts = [0, 1, 2, 100, 3839, 3840, 7680, 7920, 9504, 19_008];
    let (count, room) = (random.pick(&counts), random.pick(&counts));
    let symbols = random.numbers(count, 1024);
    let start = if random.seldom(3) { number(random) as u64 } else { random.below(count + 2) as u64 };
    match random.below(8) {
        0 => calls::lengths(r, format),
        1 => calls::fill_blanking(r, format, room),
        2 => calls::judge(r, format, &symbols),
        3 => drop(calls::read(r, format, &symbols, room)),
        4 => calls::find(r, format, &symbols, start),
        5 => calls::next(r, format, &symbols, start, room),
        6 => {
            let [link, stream] = [2, 4].map(|most| if random.seldom(6) { number(random) } else { random.within(1, most) });
            calls::way_back(r, format, link, stream, number(random));
        }
        _ => {
            let (line, positive) = (number(random), random.flip());
            drop(calls::send(r, any_asked(random, format, line, positive), &symbols, room));
        }
    }
}

fn sent_span(r: &mut Report, random: &mut Random) {
    let format = any_kind(random);
    let (line, positive) = (any_line(random), random.flip());
    let mut samples = any_samples(random, format, line);
    if random.seldom(4) {
        let at = random.below(samples.len());
        samples[at] = number(random) as u16;
    }
    drop(calls::send(r, any_asked(random, format, line, positive), &samples, shape_of(format).symbols()));
}

fn damaged_span(r: &mut Report, random: &mut Random) {
    let (kind, line) = (any_kind(random), any_line(random));
    let damages: Vec<usize> = (0..random.below(4)).map(|_| random.below(DAMAGES.len())).collect();
    read_damaged(r, random, kind, line, &damages, &Met::default());
}
