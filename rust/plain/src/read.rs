//! Reading one span (01, "Receiving and finding" and "Refusal numbers"): tests 20 to 26, each over the whole span before the next.

use crate::code::{encode, meaning, K28_5, K29_7};
use crate::format::Format;
use crate::span::{shape, Shape, ROW};
use crate::words::{crcc_of, differ, is_active, line_before, named, nearest, Repaired, FILL};
use crate::{refuse_unless, Answer};

/// What a span says about itself, and its rows stream by stream.
#[derive(Clone, Debug, PartialEq, Eq)]
pub struct Delivered {
    pub line: u32,
    pub content: [u8; 4],
    pub positive_before: bool,
    pub positive_after: bool,
    pub repairs: u32,
    /// How often each bit of a timing word was repaired, b0 first.
    pub repairs_of_bit: [u32; 12],
    pub rows: Vec<u16>,
}

/// The words of a span by word and stream, both counted from 0: word k of stream t is at k * s + t.
struct Words {
    s: usize,
    all: Vec<u16>,
}

// Where the parts of a stream begin, in words.
const ROW_AT: usize = 4;
const EAV_AT: usize = ROW_AT + ROW;
const LN_AT: usize = EAV_AT + 4;
const CRCC_AT: usize = LN_AT + 2;

impl Words {
    fn at(&self, k: usize, t: usize) -> u16 {
        self.all[k * self.s + t]
    }

    /// A test at some words of every stream, in the order sent: refused at the lowest place where it does not hold.
    fn each(&self, number: u32, words: impl IntoIterator<Item = usize>, holds: impl Fn(usize, usize) -> bool) -> Answer<()> {
        for k in words {
            for t in 0..self.s {
                if !holds(k, t) {
                    return Err((number, (k * self.s + t) as u64));
                }
            }
        }
        Ok(())
    }

    /// The XYZ words of one stream, repaired.
    fn sav(&self, t: usize) -> Option<Repaired> {
        nearest(self.at(3, t))
    }

    fn eav(&self, t: usize) -> Option<Repaired> {
        nearest(self.at(EAV_AT + 3, t))
    }

    /// In how many XYZ words a bit is not that of the repaired word.
    fn repaired_at(&self, bit: u32) -> u32 {
        let wrong = |k: usize, t: usize| nearest(self.at(k, t)).is_some_and(|r| differ(bit, self.at(k, t), r.word));
        (0..self.s).map(|t| wrong(3, t) as u32 + wrong(EAV_AT + 3, t) as u32).sum()
    }
}

/// 20: the characters of a span with the disparities before and after it. It starts at the disparity whose K28.5 is symbol 0.
fn characters(shape: Shape, symbols: &[u16]) -> Answer<(Vec<u16>, bool, bool)> {
    let opens = |positive: bool| encode(positive, K28_5.into()).is_some_and(|(symbol, _)| symbol == symbols[0]);
    let before = [false, true].into_iter().find(|&positive| opens(positive)).ok_or((20, 0))?;
    let mut disparity = before;
    let mut characters = Vec::with_capacity(symbols.len());
    for (i, &symbol) in symbols.iter().enumerate() {
        let (character, after) = meaning(disparity, symbol).filter(|&(c, _)| fits(shape, i, c)).ok_or((20, i as u64))?;
        characters.push(character);
        disparity = after;
    }
    Ok((characters, before, disparity))
}

/// Whether a character is of the kind that belongs at a symbol.
fn fits(shape: Shape, at: usize, character: u16) -> bool {
    let eav = shape.eav_symbol();
    if at < 2 {
        character == K28_5
    } else if at == eav || at == eav + 1 {
        character == K29_7
    } else {
        character < 256
    }
}

/// The words of a span, the four replaced bytes of SAV and EAV at their fixed values: FFF, then 000 with two streams and FFF with four.
fn words(shape: Shape, characters: &[u16]) -> Words {
    let mut bytes = characters.to_vec();
    let fixed = [0xFF, 0xFF, 0xFF, if shape.streams == 2 { 0x00 } else { 0xFF }];
    for at in [0, shape.eav_symbol()] {
        bytes[at..at + 4].copy_from_slice(&fixed);
    }
    let all = bytes.chunks(3).flat_map(|b| [b[0] | (b[1] & 0xF) << 8, b[1] >> 4 | b[2] << 4]).collect();
    Words { s: shape.streams, all }
}

/// 21: the three fixed words of SAV and EAV, and XYZ with its H after repair.
fn test_timing(words: &Words) -> Answer<()> {
    words.each(21, (0..4).chain(EAV_AT..EAV_AT + 4), |k, t| match k {
        3 => words.sav(t).is_some_and(|r| !r.h),
        _ if k == EAV_AT + 3 => words.eav(t).is_some_and(|r| r.h),
        _ if k == 0 || k == EAV_AT => words.at(k, t) == 0xFFF,
        _ => words.at(k, t) == 0x000,
    })
}

/// 22: stream 1 names a line, and the other streams have the same words. Gives the line named.
fn test_line(words: &Words) -> Answer<u32> {
    let first = [words.at(LN_AT, 0), words.at(LN_AT + 1, 0)];
    let next = named(first).ok_or((22, (LN_AT * words.s) as u64))?;
    words.each(22, LN_AT..LN_AT + 2, |k, t| words.at(k, t) == words.at(k, 0))?;
    Ok(next)
}

/// 23: V of the SAV fits the line, that of the EAV the next one.
fn test_v(words: &Words, line: u32, next: u32) -> Answer<()> {
    words.each(23, [3], |_, t| words.sav(t).is_some_and(|r| r.v != is_active(line)))?;
    words.each(23, [EAV_AT + 3], |_, t| words.eav(t).is_some_and(|r| r.v != is_active(next)))
}

/// 24: the CRCC is computed over restored and repaired words, from after the SAV to the last line word.
fn test_crcc(words: &Words) -> Answer<()> {
    let repaired = |k: usize, t: usize| match k {
        _ if k == EAV_AT + 3 => words.eav(t).map_or(words.at(k, t), |r| r.word),
        _ => words.at(k, t),
    };
    let crcc = |t: usize| crcc_of(&(ROW_AT..CRCC_AT).map(|k| repaired(k, t)).collect::<Vec<_>>()).words;
    let worked_out: Vec<[u16; 2]> = (0..words.s).map(crcc).collect();
    words.each(24, CRCC_AT..CRCC_AT + 2, |k, t| words.at(k, t) == worked_out[t][k - CRCC_AT])
}

/// 25: on an active line every word of the row is a sample's.
fn test_samples(words: &Words, depth: u32, line: u32) -> Answer<()> {
    let sample = |word: u16| (16..=4079).contains(&word) && (depth == 12 || word & 0b11 == 0);
    words.each(25, ROW_AT..EAV_AT, |k, t| !is_active(line) || sample(words.at(k, t)))
}

/// 26: the fill comes after all streams.
fn test_fill(shape: Shape, words: &Words) -> Answer<()> {
    match (shape.words_before_fill()..shape.words()).find(|&place| words.all[place] != FILL) {
        Some(place) => Err((26, place as u64)),
        None => Ok(()),
    }
}

/// A span of the right length.
pub fn window(shape: Shape, depth: u32, symbols: &[u16]) -> Answer<Delivered> {
    let (characters, positive_before, positive_after) = characters(shape, symbols)?;
    let words = words(shape, &characters);
    test_timing(&words)?;
    let next = test_line(&words)?;
    let line = line_before(next);
    test_v(&words, line, next)?;
    test_crcc(&words)?;
    test_samples(&words, depth, line)?;
    test_fill(shape, &words)?;

    let eav = shape.eav_symbol();
    let content = [2, 3, eav + 2, eav + 3].map(|i| characters[i] as u8);
    let distance = |repaired: Option<Repaired>| repaired.map_or(0, |r| r.distance);
    let repairs = (0..words.s).map(|t| distance(words.sav(t)) + distance(words.eav(t))).sum();
    let repairs_of_bit = std::array::from_fn(|bit| words.repaired_at(bit as u32));
    let rows = (0..words.s).flat_map(|t| (ROW_AT..EAV_AT).map(move |k| (k, t))).map(|(k, t)| words.at(k, t)).collect();
    Ok(Delivered { line, content, positive_before, positive_after, repairs, repairs_of_bit, rows })
}

/// The reader with rows; `room` is their length.
pub fn read(format: Format, symbols: &[u16], room: usize) -> Answer<Delivered> {
    let shape = shape(format)?;
    refuse_unless(symbols.len() == shape.symbols(), 3)?;
    refuse_unless(room == shape.samples(), 4)?;
    window(shape, format.depth, symbols)
}

/// The same without rows.
pub fn judge(format: Format, symbols: &[u16]) -> Answer<Delivered> {
    let shape = shape(format)?;
    refuse_unless(symbols.len() == shape.symbols(), 3)?;
    window(shape, format.depth, symbols)
}
