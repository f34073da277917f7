//! The words of a stream: timing, line number, CRCC (004, 6.2 to 6.4).

use crate::format::Format;
use crate::{refuse_unless, Answer};

/// 004, 7.1.1 and 7.1.2: the word of the fill, whatever the component.
pub const FILL: u16 = 0x100;

/// 004, 6.8: the word sent in the ancillary area and on blanking lines, 800 for C'B and C'R and 100 for Y', G', B' and R'. It has twelve bits at
/// either depth.
pub fn blanking(format: Format) -> u16 {
    match format.component {
        5 | 6 => 0x800,
        _ => 0x100,
    }
}

/// 004, table 5.
pub fn is_active(line: u32) -> bool {
    (42..=1121).contains(&line)
}

/// 01, "A span": line 1 follows 1125.
pub fn line_after(line: u32) -> u32 {
    match line {
        1125 => 1,
        _ => line + 1,
    }
}

pub fn line_before(line: u32) -> u32 {
    match line {
        1 => 1125,
        _ => line - 1,
    }
}

/// 004, tables 6 and 7: 1, F, V, H, the four protection bits, and four zeros. F is 0.
pub fn xyz(v: bool, h: bool) -> u16 {
    let protection = match (v, h) {
        (false, false) => 0b0000,
        (false, true) => 0b1101,
        (true, false) => 0b1011,
        (true, true) => 0b0110,
    };
    1 << 11 | (v as u16) << 9 | (h as u16) << 8 | protection << 4
}

/// The timing code of a line: its SAV, or its EAV (004, 6.2). V is 1 in frame blanking.
pub fn timing_code(line: u32, eav: bool) -> [u16; 4] {
    [0xFFF, 0x000, 0x000, xyz(!is_active(line), eav)]
}

/// A legal timing word near a given one: in how many bits that one differs, and in which, b0 being the lowest (004, table 6).
#[derive(Clone, Copy, Debug, PartialEq, Eq)]
pub struct Repaired {
    pub word: u16,
    pub distance: u32,
    pub bit: Option<u32>,
    pub v: bool,
    pub h: bool,
}

/// Whether two words differ in bit k.
pub fn differ(k: u32, one: u16, other: u16) -> bool {
    one >> k & 1 != other >> k & 1
}

/// The legal word at distance 0 or 1 over all twelve bits (01, "Words of a stream").
pub fn nearest(word: u16) -> Option<Repaired> {
    let legal = [(false, false), (false, true), (true, false), (true, true)];
    let near = legal.map(|(v, h)| {
        let bit = (0..12).find(|&k| differ(k, word, xyz(v, h)));
        Repaired { word: xyz(v, h), distance: (word ^ xyz(v, h)).count_ones(), bit, v, h }
    });
    near.into_iter().find(|r| r.distance <= 1)
}

/// The single call: 7 above 4095, and 8 beyond repair.
pub fn repair(word: u32) -> Answer<Repaired> {
    refuse_unless(word <= 4095, 7)?;
    nearest(word as u16).ok_or((8, 0))
}

/// b11 is the opposite of b10 (004, tables 8 and 9).
fn guarded(low: u16) -> u16 {
    match low >> 10 & 1 {
        0 => low | 1 << 11,
        _ => low,
    }
}

/// 004, table 8, of any number of eleven bits: L6 to L0 in b10 to b4 of LN0, L10 to L7 in b7 to b4 of LN1.
pub fn words_of(line: u32) -> [u16; 2] {
    let bit = |n: u32| (line >> n & 1) as u16;
    let ln0 = (0..7).map(|n| bit(n) << (n + 4)).sum();
    let ln1 = (7..11).map(|n| bit(n) << (n - 3)).sum();
    [guarded(ln0), guarded(ln1)]
}

/// The single call: 2 for a number that is not a stream line.
pub fn line_words(line: u32) -> Answer<[u16; 2]> {
    refuse_unless((1..=1125).contains(&line), 2)?;
    Ok(words_of(line))
}

/// The line for which exactly these words are sent, by search.
pub fn named(words: [u16; 2]) -> Option<u32> {
    (1..=1125).find(|&line| words_of(line) == words)
}

/// The single call: 7 first, then 22.
pub fn read_line_words(ln0: u32, ln1: u32) -> Answer<u32> {
    refuse_unless(ln0 <= 4095 && ln1 <= 4095, 7)?;
    named([ln0 as u16, ln1 as u16]).ok_or((22, 0))
}

/// The CRCC of a run of words: CRCC0 to CRCC17, and the two words that carry them.
#[derive(Clone, Copy, Debug, PartialEq, Eq)]
pub struct Crcc {
    pub bits: [bool; 18],
    pub words: [u16; 2],
}

/// 004, 6.4: the message, lowest bit of each word first, followed by eighteen zeros, divided by X^18 + X^5 + X^4 + 1. The remainder is the
/// CRCC, the coefficient of X^17 first.
pub fn crcc_of(words: &[u16]) -> Crcc {
    const TERMS_BELOW_THE_HIGHEST: [usize; 4] = [0, 13, 14, 18];
    let mut bits: Vec<bool> = words.iter().flat_map(|word| (0..12).map(move |n| word >> n & 1 == 1)).collect();
    let message = bits.len();
    bits.resize(message + 18, false);
    for at in 0..message {
        if bits[at] {
            TERMS_BELOW_THE_HIGHEST.iter().for_each(|term| bits[at + term] = !bits[at + term]);
        }
    }
    let bits: [bool; 18] = std::array::from_fn(|i| bits[message + i]);
    Crcc { bits, words: [crcc_word(&bits[..9]), crcc_word(&bits[9..])] }
}

/// 004, table 9: the first of nine bits at b2.
fn crcc_word(nine: &[bool]) -> u16 {
    guarded(nine.iter().enumerate().map(|(i, &bit)| (bit as u16) << (i + 2)).sum())
}

/// The single call: 7 if a word is above 4095.
pub fn crcc(words: &[u16]) -> Answer<Crcc> {
    refuse_unless(words.iter().all(|&word| word <= 4095), 7)?;
    Ok(crcc_of(words))
}
