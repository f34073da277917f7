//! Sending (01, "A span" and "Sending"): all samples are checked in one pass without branches, and then a span is written in one pass.

use super::words::{crcc_words, line_words, step, xyz};
use plain::code::{encode, K28_5, K29_7};
use plain::format::Format;
use plain::span::{shape, Asked};
use plain::words::{blanking, is_active, line_after, FILL};
use plain::{refuse_unless, Answer};

/// Symbols at negative disparity, then at positive, and what a character flips in the offset between them.
pub struct Tables {
    symbols: [u16; 536],
    turns: [u16; 268],
}

pub fn tables() -> Tables {
    let mut tables = Tables { symbols: [0; 536], turns: [0; 268] };
    for number in 0..268 {
        let [(negative, after), (positive, back)] = [false, true].map(|d| encode(d, number as u32).expect("a character"));
        assert!(after != back);
        tables.symbols[number] = negative;
        tables.symbols[268 + number] = positive;
        tables.turns[number] = if after { 268 } else { 0 };
    }
    tables
}

/// What has been written of a span.
struct Writer<'a> {
    tables: &'a Tables,
    symbols: &'a mut [u16],
    at: usize,
    offset: usize,
}

impl Writer<'_> {
    /// Sound if the character is below 268 and there is room for a symbol: the offset is 0 or 268.
    #[inline(always)]
    unsafe fn character(&mut self, c: usize) {
        *self.symbols.get_unchecked_mut(self.at) = *self.tables.symbols.get_unchecked(self.offset + c);
        self.offset ^= *self.tables.turns.get_unchecked(c) as usize;
        self.at += 1;
    }

    /// Two words in one number, the second twelve bits up, are its three bytes. Sound if there is room for three symbols.
    #[inline(always)]
    unsafe fn three(&mut self, both: usize) {
        self.character(both & 255);
        self.character(both >> 8 & 255);
        self.character(both >> 16);
    }

    /// Sound if both words are below 4096, and as above.
    #[inline(always)]
    unsafe fn pair(&mut self, a: u16, b: u16) {
        self.three(a as usize | (b as usize) << 12);
    }

    /// Four words of each stream, the first four bytes replaced by a sync block. Sound if there is room for them.
    #[inline(always)]
    unsafe fn timing<const S: usize>(&mut self, k: u16, content: [u8; 2], xyz: u16) {
        let block = [k, k, content[0] as u16, content[1] as u16];
        block.iter().for_each(|&c| self.character(c as usize));
        // The rest of FFF FFF 000 000, or of FFF FFF FFF FFF.
        (0..2).for_each(|_| self.character(if S == 2 { 0 } else { 255 }));
        (2..S).for_each(|_| self.pair(0, 0));
        (0..S / 2).for_each(|_| self.pair(0, 0));
        (0..S / 2).for_each(|_| self.pair(xyz, xyz));
    }

    /// `count` symbols of a word that leaves the disparity unchanged with its three symbols, as blanking and fill do. Sound if there is room
    /// for them, and the word is below 4096.
    #[inline(always)]
    unsafe fn run(&mut self, word: u16, count: usize) {
        let (start, offset) = (self.at, self.offset);
        self.pair(word, word);
        debug_assert_eq!(self.offset, offset);
        let three: [u16; 3] = [0, 1, 2].map(|i| *self.symbols.get_unchecked(start + i));
        let many: [u16; 24] = std::array::from_fn(|i| three[i % 3]);
        let mut pieces = self.symbols.get_unchecked_mut(start..start + count).chunks_exact_mut(24);
        pieces.by_ref().for_each(|piece| piece.copy_from_slice(&many));
        let rest = pieces.into_remainder();
        rest.copy_from_slice(&many[..rest.len()]);
        self.at = start + count;
    }
}

/// The picture words of a line and the CRCs of all streams, in one loop. Sound if the samples are S x 1920 allowed ones.
#[inline(always)]
unsafe fn picture<const S: usize>(out: &mut Writer, samples: &[u16], shift: u32) -> [u32; S] {
    let mut registers = [0; S];
    for j in 0..1920 {
        let sample = |t: usize| *samples.get_unchecked(t * 1920 + j);
        for t in 0..S {
            registers[t] = step(registers[t], sample(t) << shift);
        }
        for t in (0..S).step_by(2) {
            out.three((sample(t) as usize | (sample(t + 1) as usize) << 12) << shift);
        }
    }
    registers
}

/// A span of S streams, with so many symbols of fill; gives the disparity after it. Sound if nothing in the request is to be refused.
#[inline(never)]
unsafe fn span<const S: usize>(tables: &Tables, asked: Asked, samples: &[u16], shift: u32, fill: usize, symbols: &mut [u16]) -> bool {
    let [sav1, sav2, eav1, eav2] = asked.content.unwrap_or([0; 4]);
    let (next, room) = (line_after(asked.line), symbols.len());
    let mut out = Writer { tables, symbols, at: 0, offset: if asked.positive { 268 } else { 0 } };
    out.timing::<S>(K28_5, [sav1, sav2], xyz(asked.line, false));
    let mut registers = if shift == 2 { picture::<S>(&mut out, samples, 2) } else { picture::<S>(&mut out, samples, 0) };
    out.timing::<S>(K29_7, [eav1, eav2], xyz(next, true));
    let [ln0, ln1] = line_words(next);
    (0..S / 2).for_each(|_| out.pair(ln0, ln0));
    (0..S / 2).for_each(|_| out.pair(ln1, ln1));
    for word in [0xFFF, 0, 0, xyz(next, true), ln0, ln1] {
        registers.iter_mut().for_each(|register| *register = step(*register, word));
    }
    let crcc = registers.map(crcc_words);
    for k in 0..2 {
        (0..S).step_by(2).for_each(|t| out.pair(crcc[t][k], crcc[t + 1][k]));
    }
    out.run(blanking(asked.format), room - fill - out.at);
    out.run(FILL, fill);
    out.offset == 268
}

/// The lowest and the highest sample allowed, and by how much samples are shifted (004, 6.1 and 6.8).
pub fn allowed(format: Format, line: u32) -> (u16, u16, u32) {
    match (is_active(line), format.depth) {
        (false, _) => (blanking(format), blanking(format), 0),
        (true, 10) => (4, 1019, 2),
        (true, _) => (16, 4079, 0),
    }
}

/// Gives the disparity after the span. A bad sample is searched for only if there is one.
#[inline(never)]
pub fn send(tables: &Tables, asked: Asked, samples: &[u16], symbols: &mut [u16]) -> Answer<bool> {
    let shape = shape(asked.format)?;
    refuse_unless((1..=1125).contains(&asked.line), 2)?;
    refuse_unless(samples.len() == shape.samples(), 3)?;
    refuse_unless(symbols.len() == shape.symbols(), 4)?;
    let (low, high, shift) = allowed(asked.format, asked.line);
    let beyond = |x: u16| x.wrapping_sub(low).saturating_sub(high - low);
    if samples.iter().fold(0, |bad, &x| bad | beyond(x)) != 0 {
        let place = samples.iter().position(|&x| beyond(x) != 0);
        return Err((6, place.expect("one was bad") as u64));
    }
    let fill = shape.fill / 2 * 3;
    // Sound: everything was checked above.
    Ok(unsafe {
        match shape.streams {
            2 => span::<2>(tables, asked, samples, shift, fill, symbols),
            _ => span::<4>(tables, asked, samples, shift, fill, symbols),
        }
    })
}
