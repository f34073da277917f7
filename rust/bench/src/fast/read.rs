//! Reading (01, "Receiving and finding"): a span is read in one pass without stopping at what is wrong. Only if something was, its place is
//! searched for.

pub mod judge;
pub mod recording;

use super::words::{crcc_words, named, repair, step, XYZ};
use brazulint::{Content, Delivery, StreamLine};
use plain::code::{encode, K28_5, K29_7};
use plain::format::Format;
use plain::span::{shape, Shape};
use plain::words::{is_active, line_before, FILL};
use plain::{refuse_unless, Answer};

/// For each symbol that is a byte, the byte as the first, second or third of a pair of words, in bits 0 to 23; in bits 24 and 25 that it is
/// illegal at negative and at positive disparity, and twice, in bits 26 and 27, that it flips the disparity. Special ones are illegal.
pub struct Tables {
    first: [u32; 1024],
    second: [u32; 1024],
    third: [u32; 1024],
    /// The forms of K28.5 and of K29.7, by disparity.
    k28_5: [u16; 2],
    k29_7: [u16; 2],
    /// The three symbols of two fill words, by disparity, which they leave unchanged.
    fills: [[u16; 3]; 2],
}

const NEGATIVE: u32 = 1 << 24;
const POSITIVE: u32 = 1 << 25;
const BOTH: u32 = NEGATIVE | POSITIVE;

fn form(positive: bool, character: u16) -> (u16, bool) {
    encode(positive, character.into()).expect("a character")
}

fn entries(place: u32) -> [u32; 1024] {
    let mut entries = [BOTH; 1024];
    for (positive, illegal) in [(false, NEGATIVE), (true, POSITIVE)] {
        for byte in 0..256 {
            let (symbol, after) = form(positive, byte);
            let turn = if after == positive { 0 } else { BOTH << 2 };
            let entry = &mut entries[symbol as usize];
            *entry = *entry & !illegal | (byte as u32) << place | turn;
        }
    }
    entries
}

fn fills(positive: bool) -> [u16; 3] {
    let (symbols, after) = plain::span::symbols(positive, &plain::span::bytes_of(FILL, FILL));
    assert_eq!(after, positive);
    [symbols[0], symbols[1], symbols[2]]
}

pub fn tables() -> Tables {
    let forms = |character: u16| [false, true].map(|positive| form(positive, character).0);
    let [first, second, third] = [0, 8, 16].map(entries);
    Tables { first, second, third, k28_5: forms(K28_5), k29_7: forms(K29_7), fills: [false, true].map(fills) }
}

/// What has been read of a span whose symbols have ten bits. Nothing is searched for: `bad` gathers what is wrong, and is not 0 if anything
/// was. The mask is the bit of an entry that says whether it is illegal.
struct Reader<'a> {
    tables: &'a Tables,
    symbols: &'a [u16],
    at: usize,
    mask: u32,
    bad: u32,
}

impl Reader<'_> {
    fn disparity(&self) -> usize {
        (self.mask == POSITIVE) as usize
    }

    /// Sound if a symbol is left.
    #[inline(always)]
    unsafe fn entry(&mut self, entries: &[u32; 1024]) -> u32 {
        let entry = *entries.get_unchecked(*self.symbols.get_unchecked(self.at) as usize);
        self.bad |= entry & self.mask;
        self.mask ^= entry >> 2 & BOTH;
        self.at += 1;
        entry
    }

    /// Sound if a symbol is left.
    #[inline(always)]
    unsafe fn byte(&mut self) -> u32 {
        self.entry(&self.tables.first) & 255
    }

    /// Two words in one number, the second twelve bits up. Sound if three symbols are left.
    #[inline(always)]
    unsafe fn pair(&mut self) -> u32 {
        let tables = self.tables;
        let both = self.entry(&tables.first) | self.entry(&tables.second) | self.entry(&tables.third);
        both & 0xFF_FFFF
    }

    /// One word of each stream. Sound if their symbols are left.
    #[inline(always)]
    unsafe fn each<const S: usize>(&mut self) -> [u16; S] {
        let mut words = [0; S];
        for t in (0..S).step_by(2) {
            let both = self.pair();
            words[t] = (both & 4095) as u16;
            words[t + 1] = (both >> 12) as u16;
        }
        words
    }

    /// Sound if a symbol is left.
    unsafe fn special(&mut self, forms: [u16; 2], turns: bool) {
        self.bad |= (*self.symbols.get_unchecked(self.at) ^ forms[self.disparity()]) as u32;
        self.mask ^= if turns { BOTH } else { 0 };
        self.at += 1;
    }

    /// The rest of a timing code after its special characters: the content bytes, and V H of each stream's XYZ with its wrong bit. Sound if
    /// its symbols are left.
    #[inline(always)]
    unsafe fn timing<const S: usize>(&mut self, h: usize) -> ([u8; 2], [(usize, u16); S]) {
        let content = [self.byte() as u8, self.byte() as u8];
        // What is left of FFF FFF 000 000, or of FFF FFF FFF FFF.
        (0..2).for_each(|_| self.bad |= self.byte() ^ if S == 2 { 0 } else { 255 });
        (0..S / 2 * 3 - 2).for_each(|_| self.bad |= self.pair());
        let near = self.each::<S>().map(|word| repair(word).unwrap_or((4, 0)));
        near.iter().for_each(|&(vh, _)| self.bad |= (vh == 4 || vh % 2 != h) as u32);
        (content, near)
    }

    /// Whether the next `count` symbols are these three again and again. Sound if that many are left.
    #[inline(always)]
    unsafe fn are(&self, three: [u16; 3], count: usize) -> bool {
        let many: [u16; 24] = std::array::from_fn(|i| three[i % 3]);
        let mut pieces = self.symbols.get_unchecked(self.at..self.at + count).chunks_exact(24);
        let wrong = pieces.by_ref().fold(0, |wrong, piece| wrong | (0..24).fold(0, |wrong, i| wrong | (piece[i] ^ many[i])));
        wrong == 0 && pieces.remainder() == &many[..pieces.remainder().len()]
    }

    /// The ancillary area, in which any bytes may stand. Mostly it is one word again and again: if the first three symbols are bytes that leave
    /// the disparity unchanged, so are the same three wherever they come again. Sound if `count` symbols are left, which are three or more.
    /// By value and not inlined: with it inlined, reading two streams took a twenty-fifth longer.
    #[inline(never)]
    unsafe fn area(mut self, count: usize) -> Self {
        let mask = self.mask;
        let three = [0, 1, 2].map(|i| *self.symbols.get_unchecked(self.at + i));
        self.pair();
        if self.mask == mask && self.are(three, count - 3) {
            self.at += count - 3;
        } else {
            (0..count / 3 - 1).for_each(|_| _ = self.pair());
        }
        self
    }

    /// Whether the fill is as it should be to the end of the span. Sound if anything is left of the span.
    #[inline(always)]
    unsafe fn is_filled(&self) -> bool {
        self.are(self.tables.fills[self.disparity()], self.symbols.len() - self.at)
    }
}

/// The CRCs of two streams in one number, the second 32 bits up, after one more word of each; the words are twelve bits apart.
#[inline(always)]
fn step_two(registers: u64, both: u32) -> u64 {
    let words = (both & 4095) as u64 | ((both >> 12) as u64) << 32;
    let x = (registers ^ words) & 0xFFF_0000_0FFF;
    registers >> 12 & 0x3F_0000_003F ^ x << 6 ^ x << 2 ^ x << 1
}

/// The picture words into rows, and the CRC of each stream, in one loop. Sound if their symbols are left and the rows have room for them.
#[inline(always)]
unsafe fn picture<const S: usize>(reader: &mut Reader, rows: &mut [u16]) -> [u32; S] {
    let mut two = [0; S];
    for j in 0..1920 {
        for t in (0..S).step_by(2) {
            let both = reader.pair();
            two[t] = step_two(two[t], both);
            *rows.get_unchecked_mut(t * 1920 + j) = (both & 4095) as u16;
            *rows.get_unchecked_mut((t + 1) * 1920 + j) = (both >> 12) as u16;
        }
    }
    std::array::from_fn(|t| (two[t / 2 * 2] >> (32 * (t % 2))) as u32)
}

/// Whether an active line may carry all words.
fn all_allowed(depth: u32, rows: &[u16]) -> bool {
    let outside = rows.iter().fold(0, |outside, word| outside | word.wrapping_sub(16).saturating_sub(4063));
    let bits = rows.iter().fold(0, |bits, word| bits | word);
    outside == 0 && (depth == 12 || bits % 4 == 0)
}

/// A span of S streams; none if anything in it is wrong. Sound if both lengths are right.
#[inline(never)]
unsafe fn span<const S: usize>(tables: &Tables, shape: Shape, depth: u32, symbols: &[u16], rows: &mut [u16]) -> Option<Delivery> {
    if symbols.iter().fold(0, |all, symbol| all | symbol) > 1023 {
        return None;
    }
    let positive_before = symbols[0] == tables.k28_5[1];
    let mut reader = Reader { tables, symbols, at: 0, mask: if positive_before { POSITIVE } else { NEGATIVE }, bad: 0 };
    (0..2).for_each(|_| reader.special(tables.k28_5, true));
    let ([sav1, sav2], near) = reader.timing::<S>(0);
    let registers = picture::<S>(&mut reader, rows);
    (0..2).for_each(|_| reader.special(tables.k29_7, false));
    let ([eav1, eav2], next_near) = reader.timing::<S>(1);
    let (ln0, ln1) = (reader.each::<S>(), reader.each::<S>());
    let crcc = [reader.each::<S>(), reader.each::<S>()];
    let next = named([ln0[0], ln1[0]])?;
    let line = line_before(next);
    for t in 0..S {
        let ((vh, _), (next_vh, _)) = (near[t], next_near[t]);
        let after = [0xFFF, 0, 0, XYZ[next_vh % 4], ln0[t], ln1[t]];
        let worked_out = crcc_words(after.iter().fold(registers[t], |register, &word| step(register, word)));
        let right = [ln0[t], ln1[t]] == [ln0[0], ln1[0]] && worked_out == [crcc[0][t], crcc[1][t]];
        let v_fits = (vh / 2 == 0) == is_active(line) && (next_vh / 2 == 0) == is_active(next);
        reader.bad |= !(right && v_fits) as u32;
    }
    let (mut repairs, mut repairs_of_bit) = (0, [0; 12]);
    for (_, wrong) in near.into_iter().chain(next_near) {
        // Mostly none is.
        if wrong != 0 {
            repairs += 1;
            repairs_of_bit[wrong.trailing_zeros() as usize] += 1;
        }
    }
    let reader = reader.area(shape.ancillary * S / 2 * 3);
    let fine = reader.bad == 0 && reader.is_filled() && (!is_active(line) || all_allowed(depth, rows));
    let content = Content { sav1, sav2, eav1, eav2 };
    let (line, positive_after) = (StreamLine(line), reader.mask == POSITIVE);
    fine.then_some(Delivery { line, content, positive_before, positive_after, repairs, repairs_of_bit })
}

/// Gives what the span says about itself. Its words go into rows, or zeros if it is refused by 20 to 26.
#[inline(never)]
pub fn read(tables: &Tables, format: Format, symbols: &[u16], rows: &mut [u16]) -> Answer<Delivery> {
    let (shape, depth) = (shape(format)?, format.depth);
    refuse_unless(symbols.len() == shape.symbols(), 3)?;
    refuse_unless(rows.len() == shape.samples(), 4)?;
    // Sound: both lengths were checked above.
    let delivery = unsafe {
        match shape.streams {
            2 => span::<2>(tables, shape, depth, symbols, rows),
            _ => span::<4>(tables, shape, depth, symbols, rows),
        }
    };
    delivery.ok_or_else(|| {
        rows.fill(0);
        plain::read::window(shape, depth, symbols).expect_err("something was wrong")
    })
}

/// The same for a caller who does not ask why a span is refused, and does not use the rows then.
#[inline(never)]
fn accepted(tables: &Tables, shape: Shape, depth: u32, symbols: &[u16], rows: &mut [u16]) -> Option<Delivery> {
    assert!(symbols.len() == shape.symbols() && rows.len() == shape.samples());
    // Sound: both lengths are right.
    unsafe {
        match shape.streams {
            2 => span::<2>(tables, shape, depth, symbols, rows),
            _ => span::<4>(tables, shape, depth, symbols, rows),
        }
    }
}
