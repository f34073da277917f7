//! Random spans, changed in any way or not: words before or after the CRCC is computed, characters, symbols.

use crate::spans::{made_characters, made_words, shape_of};
use plain::code::encode;
use plain::format::Format;
use plain::span::{symbols, Shape, ROW};
use plain::words::{crcc_of, is_active, words_of, xyz};
use random::Random;

// Where the parts of a stream begin, in words (01, "A span").
const ROW_AT: usize = 4;
const EAV_AT: usize = ROW_AT + ROW;
const LN_AT: usize = EAV_AT + 4;
const CRCC_AT: usize = LN_AT + 2;
const ANCILLARY_AT: usize = CRCC_AT + 2;

/// Sets the CRCC of every stream to that of its words as they are (004, 6.4).
fn put_crcc(shape: Shape, words: &mut [u16]) {
    let s = shape.streams;
    for t in 0..s {
        let run: Vec<u16> = (ROW_AT..CRCC_AT).map(|k| words[k * s + t]).collect();
        let [crcc0, crcc1] = crcc_of(&run).words;
        words[CRCC_AT * s + t] = crcc0;
        words[(CRCC_AT + 1) * s + t] = crcc1;
    }
}

/// A place among the words: in the SAV, the picture, the EAV, the line number, the CRCC, the ancillary area or the fill, often at its ends.
fn word_place(random: &mut Random, shape: Shape) -> usize {
    let [row, eav, ln, crcc, ancillary] = [ROW_AT, EAV_AT, LN_AT, CRCC_AT, ANCILLARY_AT].map(|k| k * shape.streams);
    let bounds = [0, row, eav, ln, crcc, ancillary, shape.words_before_fill(), shape.words()];
    let part = random.below(7);
    let inside = random.within(bounds[part] as u32, bounds[part + 1] as u32 - 1) as usize;
    random.pick(&[bounds[part], bounds[part + 1] - 1, inside, inside, inside])
}

/// One bit or two inverted, or another word: XYZ, line number, an end of the allowed range, any.
fn change_word(random: &mut Random, word: u16) -> u16 {
    let legal = [xyz(false, false), xyz(false, true), xyz(true, false), xyz(true, true)];
    let (bit, other) = (1 << random.below(12), 1 << random.below(12));
    let [ln0, ln1] = words_of(random.within(0, 1130));
    let any = random.next() as u16 % 4096;
    match random.below(8) {
        0..=2 => word ^ bit,
        3 => word ^ bit ^ other,
        4 => random.pick(&legal) ^ random.pick(&[0, bit]),
        5 => random.pick(&[ln0, ln1]),
        6 => random.pick(&[0, 15, 16, 17, 0x100, 0x800, 4076, 4079, 4080, 0xFFF]),
        _ => any,
    }
}

fn change_words(random: &mut Random, shape: Shape, words: &mut [u16]) {
    for _ in 0..random.pick(&[1, 1, 1, 2, 3]) {
        let place = word_place(random, shape);
        words[place] = change_word(random, words[place]);
    }
}

/// One or several picture words just outside what an active line may carry, or that it may carry at another depth.
fn spoil_picture(random: &mut Random, shape: Shape, words: &mut [u16]) {
    let (first, end) = (ROW_AT * shape.streams, EAV_AT * shape.streams);
    for _ in 0..random.pick(&[1, 1, 2, 9]) {
        let inside = first + random.below(shape.samples());
        let place = random.pick(&[first, end - 1, inside, inside, inside]);
        words[place] = random.pick(&[0, 12, 15, 16, 17, 18, 19, 1021, 4076, 4077, 4079, 4080, 4095]);
    }
}

/// XYZ words with a wrong bit each, some of them or all.
fn spoil_timing(random: &mut Random, shape: Shape, words: &mut [u16]) {
    let often = random.pick(&[1, 2]);
    for k in [3, EAV_AT + 3] {
        for t in 0..shape.streams {
            if random.seldom(often) {
                words[k * shape.streams + t] ^= 1 << random.below(12);
            }
        }
    }
}

/// The words of another line, or V of another, on all streams.
fn change_line(random: &mut Random, shape: Shape, words: &mut [u16]) {
    let any = random.within(0, 2047);
    let lines = [0, 1, 2, 41, 42, 43, 127, 128, 1121, 1122, 1123, 1125, 1126, any];
    let (line, other) = (random.pick(&lines), random.pick(&lines));
    let mut fill = |k: usize, word: u16| words[k * shape.streams..(k + 1) * shape.streams].fill(word);
    match random.below(3) {
        0 => fill(3, xyz(!is_active(line), false)),
        1 => fill(EAV_AT + 3, xyz(!is_active(line), true)),
        _ => {
            fill(LN_AT, words_of(line)[0]);
            fill(LN_AT + 1, words_of(random.pick(&[line, line, other]))[1]);
        }
    }
}

/// Bits inverted, symbols of any sixteen bits, or legal ones where they may not be.
fn change_symbols(random: &mut Random, shape: Shape, symbols: &mut [u16]) {
    let eav = shape.eav_symbol();
    for _ in 0..random.pick(&[1, 1, 1, 2, 5]) {
        let places = [0, 1, 2, 3, eav, eav + 1, eav + 2, symbols.len() - 1];
        let (near, far) = (random.pick(&places), random.below(symbols.len()));
        let place = random.pick(&[near, far, far, far]);
        let (positive, character, any) = (random.below(2) == 1, random.below(268), random.next() as u16);
        symbols[place] = match random.below(5) {
            0 | 1 => symbols[place] ^ 1 << random.below(10),
            2 => symbols[place] ^ 1 << random.below(16),
            3 => encode(positive, character as u32).expect("a character").0,
            _ => any,
        };
    }
}

/// Words that no test judges: those of the picture on a blanking line, and those of the ancillary area.
fn put_foreign(random: &mut Random, words: &mut [u16]) {
    words.iter_mut().for_each(|word| *word = random.next() as u16 % 4096);
}

/// The symbols of a span, sent correctly or changed in any way.
pub fn random_symbols(random: &mut Random, format: Format) -> Vec<u16> {
    let shape = shape_of(format);
    let s = shape.streams;
    let any = random.within(1, 1125);
    let line = random.pick(&[1, 41, 42, 127, 128, 1121, 1122, 1125, any, any, any, any]);
    let mut words = made_words(random, format, line);
    let change = random.below(13);
    match change {
        0 | 1 => change_words(random, shape, &mut words),
        2 => change_line(random, shape, &mut words),
        3 => spoil_picture(random, shape, &mut words),
        4 if !is_active(line) => put_foreign(random, &mut words[ROW_AT * s..EAV_AT * s]),
        _ => {}
    }
    put_crcc(shape, &mut words);
    match change {
        5 | 6 => change_words(random, shape, &mut words),
        7 => change_line(random, shape, &mut words),
        8 => spoil_timing(random, shape, &mut words),
        9 => put_foreign(random, &mut words[ANCILLARY_AT * s..shape.words_before_fill()]),
        _ => {}
    }
    let mut characters = made_characters(random, shape, &words);
    if change == 10 {
        let place = random.below(characters.len());
        characters[place] = random.within(0, 267) as u16;
    }
    let mut symbols = symbols(random.seldom(2), &characters).0;
    if change == 11 || random.seldom(20) {
        change_symbols(random, shape, &mut symbols);
    }
    symbols
}
