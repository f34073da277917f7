//! Finding, next spans and delivery by steps, over recordings of all kinds.

use crate::calls;
use crate::expected;
use crate::pieces::{any_recording, any_start, inserted, inverted, lost, noise};
use crate::report::{in_two, Report};
use crate::spans::{any_asked, any_carrying, any_samples, any_sent, shape_of, KINDS};
use brazulint::{Content, Delivery, Live, Span, StreamLine};
use plain::format::Format;
use plain::span::{row_words, send, Asked};
use random::Random;

pub fn run() -> Report {
    let mut r = in_two(any_recordings);
    r.add(in_two(at_every_place));
    r.add(in_two(one_bit));
    r.add(in_two(one_symbol));
    r.add(in_two(live));
    r.add(in_two(pairs));
    r
}

/// A link in pieces: the same as all of it at once, by plain, however it is cut.
fn live(part: usize, r: &mut Report) {
    let mut random = Random(0x505 + part as u64);
    for round in 0..25 {
        for kind in KINDS {
            let format = any_carrying(&mut random, kind);
            let (symbols, longest) = (random.below(80_000), [2, 100, 5_000, 20_000, 60_000][round % 5]);
            r.context = format!("round {round} of half {part}, pieces of less than {longest}");
            in_pieces(r, &mut random, format, symbols, longest);
        }
    }
}

/// A random recording that arrives in pieces, each with less than `longest` symbols, which are two or more.
pub fn in_pieces(r: &mut Report, random: &mut Random, format: Format, symbols: usize, longest: usize) {
    let recording = any_recording(random, format, symbols);
    let mut link = Live::new(calls::given(format)).expect("a known format");
    let (mut from, mut spans) = (0, Vec::new());
    while from < recording.len() {
        let to = recording.len().min(from + random.below(longest));
        spans.extend(link.arrive(&recording[from..to]).expect("a piece that is not too long"));
        from = to;
    }
    let told: Vec<_> = spans.into_iter().map(|span| (span.place, span.delivery, span.rows)).collect();
    let plain = plain::recording::delivery(format, &recording).expect("a known format");
    let whole: Vec<_> = plain.into_iter().map(|(place, d)| (place, expected::delivery(&d), d.rows)).collect();
    r.holds(|| format!("{} symbols in pieces deliver something else", recording.len()), told == whole);
}

fn any_recordings(part: usize, r: &mut Report) {
    let mut random = Random(0x101 + part as u64);
    for round in 0..25 {
        for kind in KINDS {
            let (format, symbols) = (any_carrying(&mut random, kind), random.below(60_000));
            r.context = format!("round {round} of half {part}");
            search(r, &mut random, format, symbols);
        }
    }
}

/// All three calls over a random recording.
pub fn search(r: &mut Report, random: &mut Random, format: Format, symbols: usize) {
    let recording = any_recording(random, format, symbols);
    calls::deliver(r, format, &recording);
    for _ in 0..4 {
        let start = any_start(random, format, recording.len());
        calls::find(r, format, &recording, start);
        calls::next(r, format, &recording, start, shape_of(format).samples());
    }
}

/// A sent span at places 0, 1, 2 and so on among noise.
fn at_every_place(part: usize, r: &mut Report) {
    let mut random = Random(0x202 + part as u64);
    for place in (part..260).step_by(2) {
        let format = any_carrying(&mut random, KINDS[place / 2 % 6]);
        let span = any_sent(&mut random, format);
        let recording = [random.numbers(place, 1024), span, noise(&mut random)].concat();
        r.context = format!("a span at {place}");
        calls::deliver(r, format, &recording);
        for start in [0, place, place + 1] {
            calls::find(r, format, &recording, start as u64);
        }
        let found = brazulint::find(calls::given(format), &recording, 0);
        r.holds(|| format!("the span at {place} is not found"), found.result() == Ok(Some(place as u64)));
    }
}

/// Distances of pairs of K28.5: next to each other, about as far apart as a finder may look ahead, and far.
const DISTANCES: [usize; 12] = [1, 2, 3, 4, 63, 64, 65, 128, 129, 130, 200, 1000];

/// The beginning of a span again and again, so that a pair of K28.5 stands at every distance; before a sent span and behind it, and with a
/// pair in a span before a whole one.
fn pairs(part: usize, r: &mut Report) {
    let mut random = Random(0x505 + part as u64);
    for (round, distance) in DISTANCES.into_iter().enumerate() {
        let format = any_carrying(&mut random, KINDS[(2 * round + part) % 6]);
        let (span, other) = (any_sent(&mut random, format), any_sent(&mut random, format));
        let length = span.len();
        let count = random.pick(&[distance, 700, length - 1, length + 1, 2 * length]);
        let starts: Vec<u16> = (0..count).map(|i| other[i % distance]).collect();
        let mut hurt = other.clone();
        let at = random.pick(&[2, 3, distance, length / 2, length - 3, length - 2]);
        hurt[at..at + 2].copy_from_slice(&other[..2]);
        for (k, recording) in [[&starts, &span, &starts], [&hurt, &span, &starts], [&starts, &hurt, &span]].into_iter().enumerate() {
            let recording = recording.map(Vec::as_slice).concat();
            r.context = format!("pairs of K28.5 at a distance of {distance}, recording {k} of half {part}");
            calls::deliver(r, format, &recording);
            for start in [0, 1, 2, count, count + 1, at] {
                calls::find(r, format, &recording, start as u64);
            }
        }
    }
}

/// What was sent in one span, and what must be answered for it.
struct Sent {
    symbols: Vec<u16>,
    rows: Vec<u16>,
    delivery: Delivery,
}

/// Spans with the disparity handed on.
fn chain(random: &mut Random, format: Format, count: u32) -> Vec<Sent> {
    let (first, mut positive) = (random.within(1, 1125), random.flip());
    let mut spans = Vec::new();
    for i in 0..count {
        let line = (first + i - 1) % 1125 + 1;
        let samples = any_samples(random, format, line);
        let asked = any_asked(random, format, line, positive);
        let (symbols, after) = send(asked, &samples, shape_of(format).symbols()).expect("a good call is not refused");
        let rows = row_words(format, line, &samples).expect("samples that may be sent");
        spans.push(Sent { symbols, rows, delivery: delivery(asked, after) });
        positive = after;
    }
    spans
}

fn delivery(asked: Asked, positive_after: bool) -> Delivery {
    let [sav1, sav2, eav1, eav2] = asked.content.unwrap_or([0; 4]);
    let content = Content { sav1, sav2, eav1, eav2 };
    Delivery { line: StreamLine(asked.line), content, positive_before: asked.positive, positive_after, repairs: 0, repairs_of_bit: [0; 12] }
}

/// One inverted bit in sent spans alone: exactly the other spans are delivered, with what was sent. This calls only the library.
fn one_bit(part: usize, r: &mut Report) {
    let mut random = Random(0x303 + part as u64);
    for round in 0..300 {
        let format = any_carrying(&mut random, KINDS[round % 6]);
        let spans = chain(&mut random, format, 1 + round as u32 % 4);
        let mut recording: Vec<u16> = spans.iter().flat_map(|span| span.symbols.iter().copied()).collect();
        let at = random.below(recording.len());
        recording[at] ^= 1 << random.below(10);
        r.context = format!("{} sent spans with one bit of symbol {at} inverted", spans.len());
        let length = shape_of(format).symbols();
        let others = spans.iter().enumerate().filter(|(i, _)| *i != at / length).map(|(i, span)| (i * length, span));
        delivers(r, format, &recording, others);
    }
}

/// Exactly these spans are delivered at these places, and then none; by steps, and by the iterator.
fn delivers<'a>(r: &mut Report, format: Format, recording: &[u16], spans: impl Iterator<Item = (usize, &'a Sent)>) {
    let (format, samples) = (calls::given(format), shape_of(format).samples());
    let mut iterator = brazulint::spans(format, recording);
    let mut start = 0;
    for (place, span) in spans {
        let mut rows = vec![0; samples];
        let next = brazulint::next(format, recording, start, &mut rows);
        r.answer(|| format!("the span sent at {place}"), next.result(), Ok(Some((place as u64, span.delivery))));
        r.holds(|| format!("the span sent at {place} is delivered with other words"), rows == span.rows);
        let whole = Span { place: place as u64, delivery: span.delivery, rows: span.rows.clone() };
        r.holds(|| format!("the iterator does not give the span sent at {place}"), iterator.next() == Some(Ok(whole)));
        start = next.resume;
    }
    let next = brazulint::next(format, recording, start, &mut vec![0; samples]);
    r.answer(|| format!("after the last span, at {start}"), next.result(), Ok(None));
    r.holds(|| format!("the iterator goes on after the last span, at {start}"), iterator.next().is_none());
}

/// A symbol inserted, lost or with one bit inverted in sent spans, against plain.
fn one_symbol(part: usize, r: &mut Report) {
    let mut random = Random(0x404 + part as u64);
    for round in 0..90 {
        let format = any_carrying(&mut random, KINDS[round % 6]);
        let spans = chain(&mut random, format, 2);
        let recording: Vec<u16> = spans.into_iter().flat_map(|span| span.symbols).collect();
        let change = [inserted, lost, inverted][round / 6 % 3];
        r.context = format!("two sent spans, change {} of round {round}", round / 6 % 3);
        calls::deliver(r, format, &change(&mut random, recording));
    }
}
