//! What recordings are made of: sent spans, and things that look like spans or keep them from being found.

use crate::damage::{damaged, some_xyzs, DAMAGES};
use crate::spans::{any_carrying, any_sent, shape_of, Draft};
use plain::code::{encode, K28_5};
use plain::format::Format;
use random::Random;

type Piece = fn(&mut Random, Format) -> Vec<u16>;

const PIECES: [Piece; 14] = [
    any_sent,
    any_sent,
    repaired,
    |random, _| noise(random),
    |random, _| legal_noise(random),
    |random, format| cut(random, format).0,
    |random, format| cut(random, format).1,
    |random, _| commas(random),
    |random, format| any_sent(random, Format { number: format.number % 3 + 1, ..format }),
    near_span,
    begun_and_whole,
    |random, format| changed(random, format, inserted),
    |random, format| changed(random, format, lost),
    |random, format| changed(random, format, inverted),
];

/// Random pieces, until there are that many symbols. Each is of any component: reading does not depend on it.
pub fn any_recording(random: &mut Random, format: Format, symbols: usize) -> Vec<u16> {
    let mut recording = Vec::new();
    while recording.len() < symbols {
        let piece = random.pick(&PIECES);
        let format = any_carrying(random, format);
        recording.extend(piece(random, format));
    }
    recording
}

/// A span that is delivered, with some timing words repaired.
fn repaired(random: &mut Random, format: Format) -> Vec<u16> {
    let mut draft = Draft::at_random(random, format);
    some_xyzs(random, &mut draft);
    draft.symbols()
}

/// Ten-bit numbers, or larger ones.
pub fn noise(random: &mut Random) -> Vec<u16> {
    let count = random.below(3000);
    let limit = random.pick(&[1024, 1024, 65_536]);
    random.numbers(count, limit)
}

/// Symbols in a legal sequence, special characters among them.
fn legal_noise(random: &mut Random) -> Vec<u16> {
    let characters = (0..random.below(3000)).map(|_| random.within(0, 267) as u16).collect::<Vec<_>>();
    plain::span::symbols(random.flip(), &characters).0
}

/// The front of a span, and its rest.
fn cut(random: &mut Random, format: Format) -> (Vec<u16>, Vec<u16>) {
    let mut front = any_sent(random, format);
    let rest = front.split_off(random.below(front.len()));
    (front, rest)
}

/// A run of K28.5: in one form, in the other, or alternating.
fn commas(random: &mut Random) -> Vec<u16> {
    let forms = [false, true].map(|positive| encode(positive, K28_5.into()).expect("K28.5 has a symbol").0);
    let (from, turns) = (random.below(2), random.below(2));
    let count = if random.flip() { random.below(7) } else { random.below(700) };
    (0..count).map(|i| forms[(from + i * turns) % 2]).collect()
}

/// A span that is right except for one late fault: in the CRCC, the row, the fill, or the last symbol.
fn near_span(random: &mut Random, format: Format) -> Vec<u16> {
    let draft = Draft::at_random(random, format);
    let late = ["a bit of CRCC1", "a word at the end of what samples have", "the last fill word", "nothing"];
    let name = random.pick(&late);
    let change = DAMAGES.iter().find(|(damage, _)| *damage == name).expect("a known damage").1;
    let mut symbols = damaged(random, draft, &[change], true);
    if name == "nothing" {
        *symbols.last_mut().expect("a span has symbols") ^= 1 << random.below(10);
    }
    symbols
}

/// A span that is begun and not ended, with a whole one right after it.
fn begun_and_whole(random: &mut Random, format: Format) -> Vec<u16> {
    [cut(random, format).0, any_sent(random, format)].concat()
}

/// A sent span with one change.
fn changed(random: &mut Random, format: Format, change: fn(&mut Random, Vec<u16>) -> Vec<u16>) -> Vec<u16> {
    let span = any_sent(random, format);
    change(random, span)
}

pub fn inserted(random: &mut Random, mut symbols: Vec<u16>) -> Vec<u16> {
    let at = random.below(symbols.len());
    symbols.insert(at, random.below(1024) as u16);
    symbols
}

pub fn lost(random: &mut Random, mut symbols: Vec<u16>) -> Vec<u16> {
    symbols.remove(random.below(symbols.len()));
    symbols
}

pub fn inverted(random: &mut Random, mut symbols: Vec<u16>) -> Vec<u16> {
    let at = random.below(symbols.len());
    symbols[at] ^= 1 << random.below(10);
    symbols
}

/// Places to start from: the ends, next to where spans may be, and any.
pub fn any_start(random: &mut Random, format: Format, length: usize) -> u64 {
    let span = shape_of(format).symbols();
    let start = match random.below(6) {
        0 => 0,
        1 => random.below(3),
        2 => length - random.below(3).min(length),
        3 => length.saturating_sub(span) + random.below(3),
        4 => length + random.below(2),
        _ => random.below(length + 1),
    };
    start as u64
}
