//! Inputs of the program: a format, a depth, and the symbols of a recording, two bytes each.

use crate::{MOST, REFUSED};
use outside::changed::random_symbols;
use outside::spans::{made_characters, made_words, sent_symbols, shape_of};
use plain::format::Format;
use plain::span::symbols;
use random::Random;

/// An input with its name, and what must be printed for it. That is known from what was put in, so it does not rest on the reader alone.
pub type Known = (&'static str, Vec<u8>, &'static str);

fn input(format: u8, depth: u8, symbols: &[u16]) -> Vec<u8> {
    [format, depth].into_iter().chain(symbols.iter().flat_map(|s| s.to_le_bytes())).collect()
}

// ---- What a recording is made of.

fn noise(random: &mut Random, count: usize) -> Vec<u16> {
    (0..count).map(|_| random.next() as u16 % 1024).collect()
}

/// A span of a line, sent correctly, at either disparity.
fn good(random: &mut Random, format: Format, line: u32) -> Vec<u16> {
    let positive = random.seldom(2);
    sent_symbols(random, format, line, positive)
}

/// One bit of one symbol inverted: it costs the span.
fn damaged(mut symbols: Vec<u16>) -> Vec<u16> {
    let middle = symbols.len() / 2;
    symbols[middle] ^= 1 << 3;
    symbols
}

/// A span with one wrong bit in a timing word. It is sent with legal symbols, and the CRCC is that of the right word, so it is repaired.
fn repaired(random: &mut Random, format: Format, line: u32) -> Vec<u16> {
    let shape = shape_of(format);
    let mut words = made_words(random, format, line);
    words[1927 * shape.streams + 1] ^= 1 << 7;
    symbols(true, &made_characters(random, shape, &words)).0
}

// ---- Known inputs.

/// The stored inputs.
pub fn stored() -> Vec<Known> {
    let random = &mut Random(1);
    let [one, two, three] = [(1, 12), (2, 10), (3, 12)].map(|(number, depth)| Format::plain(number, depth));
    let first = [
        noise(random, 500),
        good(random, one, 1125),
        damaged(good(random, one, 1)),
        repaired(random, one, 42),
        good(random, one, 43)[..shape_of(one).symbols() - 1].to_vec(),
    ];
    let second = [
        noise(random, 37),
        good(random, two, 1),
        damaged(good(random, two, 2)),
        noise(random, 1),
        good(random, two, 1121),
        good(random, two, 1122)[..3000].to_vec(),
    ];
    let third = [noise(random, 1000), repaired(random, three, 1122), good(random, three, 1123)[..12_000].to_vec()];
    vec![
        ("format-1", input(1, 12, &first.concat()), "500 1125\n16340 42\n"),
        ("format-2", input(2, 10, &second.concat()), "37 1\n19046 1121\n"),
        ("format-3", input(3, 12, &third.concat()), "1000 1122\n"),
        ("refused", input(4, 12, &good(random, one, 42)), REFUSED),
    ]
}

/// The limits of the input, of what is read of it, and of what is known.
pub fn edges() -> Vec<Known> {
    let random = &mut Random(2);
    let one = Format::plain(1, 10);
    let n = shape_of(one).symbols();
    let span = good(random, one, 1125);
    let whole = input(1, 10, &span);
    let at = |random: &mut Random, place: usize| input(1, 10, &[noise(random, place), span.clone()].concat());
    let mut edges = vec![
        ("nothing", vec![], REFUSED),
        ("one byte", vec![1], REFUSED),
        ("no symbol", vec![1, 10], ""),
        ("no symbol of an unknown format", vec![0, 10], REFUSED),
        ("half a symbol", vec![3, 12, 0x7C], ""),
        ("an odd last byte", [&whole[..], &[1]].concat(), "0 1125\n"),
        ("half of the last symbol", whole[..whole.len() - 1].to_vec(), ""),
        ("a span that ends one symbol before the last", at(random, MOST - n - 1), "24846 1125\n"),
        ("a span that ends at the last symbol", at(random, MOST - n), "24847 1125\n"),
        ("a symbol after the last", [at(random, MOST - n), vec![1, 0]].concat(), "24847 1125\n"),
        ("a span that ends one symbol past the last", at(random, MOST - n + 1), ""),
        ("an odd byte after the last symbol", [at(random, MOST - n), vec![1]].concat(), "24847 1125\n"),
        ("more than is read", [at(random, 5000), whole.repeat(5)].concat(), "5000 1125\n12921 1125\n20842 1125\n"),
        ("spans one after the other", input(1, 10, &span.repeat(6)), "0 1125\n7920 1125\n15840 1125\n23760 1125\n"),
    ];
    for (format, depth) in [(0, 10), (4, 10), (255, 12), (1, 0), (2, 9), (3, 11), (1, 13), (1, 255)] {
        edges.push(("an unknown format or depth", input(format, depth, &span), REFUSED));
    }
    edges
}

// ---- Random inputs.

/// Spans sent correctly or changed in any way, whole or not, with anything between them.
pub fn recording(random: &mut Random) -> Vec<u8> {
    let (format, depth) = (random.pick(&[1, 1, 1, 2, 2, 3]), random.pick(&[10, 12]));
    let right = Format::plain(format.into(), depth.into());
    let mut symbols = Vec::new();
    for _ in 0..random.below(7) {
        let (line, few) = (random.within(1, 1125), random.below(2000));
        symbols.extend(match random.below(6) {
            0 => noise(random, few),
            1 => random.numbers(few, 65_536),
            2 => good(random, right, line)[..few].to_vec(),
            3 => random_symbols(random, right),
            _ => good(random, right, line),
        });
    }
    let mut bytes = input(format, depth, &symbols);
    if random.seldom(20) {
        let place = random.below(2);
        bytes[place] = random.next() as u8;
    }
    bytes.truncate(bytes.len() - random.below(2));
    bytes
}
