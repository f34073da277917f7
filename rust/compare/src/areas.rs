//! Ancillary areas in which three symbols come again and again, or nearly so. Test 20 alone judges the area (01, "Refusal numbers"), and a
//! reader that knows blanking of either word by its first three symbols must take nothing else for legal.

use crate::calls;
use crate::report::{in_two, Report};
use crate::spans::{every_second, Draft};
use plain::format::Format;
use plain::span::symbols;
use random::Random;
use std::ops::Range;
use std::sync::atomic::{AtomicU64, Ordering};

/// How often such a span must be delivered, and how often it must be refused.
const OFTEN: u64 = 200;

/// Spans of each kind and component.
const ROUNDS: usize = 60;

pub fn run() -> Report {
    let [delivered, refused] = [(); 2].map(|()| AtomicU64::new(0));
    let mut r = in_two(|part, r| {
        let mut random = Random(0x808 + part as u64);
        for (format, round) in every_second(part).flat_map(|format| (0..ROUNDS).map(move |round| (format, round))) {
            let met = if is_delivered(r, &mut random, format, round) { &delivered } else { &refused };
            met.fetch_add(1, Ordering::Relaxed);
        }
    });
    let times = [delivered, refused].map(AtomicU64::into_inner);
    r.holds(|| format!("delivered and refused {times:?} times only"), times.iter().all(|&times| times >= OFTEN));
    r
}

fn is_delivered(r: &mut Report, random: &mut Random, format: Format, round: usize) -> bool {
    let draft = Draft::at_random(random, format);
    let symbols = WAYS[round % WAYS.len()](random, &draft);
    r.context = format!("way {} of filling the ancillary area", round % WAYS.len());
    calls::judge(r, format, &symbols);
    calls::next(r, format, &symbols, 0, draft.shape.samples());
    calls::read(r, format, &symbols, draft.shape.samples()).is_ok()
}

/// The symbols of the ancillary area: 1932 words of each stream come before it.
fn area(draft: &Draft) -> Range<usize> {
    draft.shape.streams * 1932 / 2 * 3..draft.shape.words_before_fill() / 2 * 3
}

/// One of its first four symbols, its last, or any.
fn place(random: &mut Random, draft: &Draft) -> usize {
    let Range { start, end } = area(draft);
    let any = start + random.below(end - start);
    random.pick(&[start, start + 1, start + 2, start + 3, end - 1, any, any, any])
}

type Way = fn(&mut Random, &Draft) -> Vec<u16>;

const WAYS: [Way; 6] = [
    |random, draft| coded(draft, &again(random, draft)),
    special_again,
    |random, draft| one_character(random, draft, 0, 255),
    |random, draft| one_character(random, draft, 256, 267),
    one_bit,
    same_symbols,
];

/// The characters of a span with these three again and again in the area.
fn filled(draft: &Draft, three: &[u16]) -> Vec<u16> {
    let mut characters = draft.characters();
    characters[area(draft)].chunks_mut(3).for_each(|part| part.copy_from_slice(three));
    characters
}

/// Three bytes again and again.
fn again(random: &mut Random, draft: &Draft) -> Vec<u16> {
    filled(draft, &random.numbers(3, 256))
}

/// A special character among the three.
fn special_again(random: &mut Random, draft: &Draft) -> Vec<u16> {
    let mut three = random.numbers(3, 256);
    three[random.below(3)] = random.within(256, 267) as u16;
    coded(draft, &filled(draft, &three))
}

fn coded(draft: &Draft, characters: &[u16]) -> Vec<u16> {
    symbols(draft.positive, characters).0
}

/// Three bytes again and again, but for one character, from low to high.
fn one_character(random: &mut Random, draft: &Draft, low: u32, high: u32) -> Vec<u16> {
    let mut characters = again(random, draft);
    characters[place(random, draft)] = random.within(low, high) as u16;
    coded(draft, &characters)
}

/// Three bytes again and again, but for one bit of a symbol.
fn one_bit(random: &mut Random, draft: &Draft) -> Vec<u16> {
    let mut symbols = coded(draft, &again(random, draft));
    symbols[place(random, draft)] ^= 1 << random.below(10);
    symbols
}

/// The first three symbols again and again, also where they change the disparity.
fn same_symbols(random: &mut Random, draft: &Draft) -> Vec<u16> {
    let mut symbols = coded(draft, &again(random, draft));
    area(draft).skip(3).for_each(|at| symbols[at] = symbols[at - 3]);
    symbols
}
