//! A span and how it is sent (01, "A span" and "Sending"; 004, 7.1).

use crate::code::{encode, K28_5, K29_7};
use crate::format::Format;
use crate::words::{blanking, crcc_of, is_active, line_after, line_words, timing_code, FILL};
use crate::{refuse_unless, Answer};

/// Samples of a line of one stream.
pub const ROW: usize = 1920;

/// Streams, ancillary words of each, fill words of all (004, tables 4, 11 and 14).
#[derive(Clone, Copy, Debug)]
pub struct Shape {
    pub streams: usize,
    pub ancillary: usize,
    pub fill: usize,
}

impl Shape {
    pub fn samples(self) -> usize {
        self.streams * ROW
    }

    /// SAV, row, EAV, line number, CRCC and ancillary words come before the fill.
    pub fn words_before_fill(self) -> usize {
        self.streams * (4 + ROW + 4 + 2 + 2 + self.ancillary)
    }

    pub fn words(self) -> usize {
        self.words_before_fill() + self.fill
    }

    /// Two words are three bytes.
    pub fn symbols(self) -> usize {
        self.words() / 2 * 3
    }

    /// The symbol at which the EAV starts, after SAV and row.
    pub fn eav_symbol(self) -> usize {
        self.streams * (4 + ROW) / 2 * 3
    }
}

/// The shape of a format; 1 if anything of it is unknown.
pub fn shape(format: Format) -> Answer<Shape> {
    refuse_unless(format.is_known(), 1)?;
    Ok(match format.number {
        1 => Shape { streams: 2, ancillary: 268, fill: 880 },
        2 => Shape { streams: 2, ancillary: 708, fill: 1056 },
        _ => Shape { streams: 4, ancillary: 708, fill: 2112 },
    })
}

/// The words of one stream, from the SAV of a line up to the fill. EAV, line number and CRCC are those of the next line; the CRCC runs from
/// after the SAV to the last line word (004, 6.4).
fn stream(format: Format, line: u32, row: &[u16]) -> Answer<Vec<u16>> {
    let next = line_after(line);
    let mut words = timing_code(line, false).to_vec();
    words.extend(row);
    words.extend(timing_code(next, true));
    words.extend(line_words(next)?);
    words.extend(crcc_of(&words[4..]).words);
    words.extend(vec![blanking(format); shape(format)?.ancillary]);
    Ok(words)
}

/// The words of a span: the streams word by word, stream 1 first, and the fill after them. The rows have twelve-bit words.
pub fn words(format: Format, line: u32, rows: &[u16]) -> Answer<Vec<u16>> {
    let fill = shape(format)?.fill;
    let streams = rows.chunks(ROW).map(|row| stream(format, line, row)).collect::<Answer<Vec<_>>>()?;
    let mut words: Vec<u16> = (0..streams[0].len()).flat_map(|k| streams.iter().map(move |stream| stream[k])).collect();
    words.extend(vec![FILL; fill]);
    Ok(words)
}

/// Two words are three bytes: the low eight bits of A; the low four of B above the high four of A; the high eight of B (01, "A span").
pub fn bytes_of(a: u16, b: u16) -> [u16; 3] {
    [a & 0xFF, (b & 0xF) << 4 | a >> 8, b >> 4]
}

/// The characters of a span: its bytes, with the first four of SAV and EAV replaced (004, 7.1.1).
pub fn characters(shape: Shape, words: &[u16], content: [u8; 4]) -> Vec<u16> {
    let mut characters: Vec<u16> = words.chunks(2).flat_map(|two| bytes_of(two[0], two[1])).collect();
    let [sav1, sav2, eav1, eav2] = content.map(u16::from);
    let eav = shape.eav_symbol();
    characters[..4].copy_from_slice(&[K28_5, K28_5, sav1, sav2]);
    characters[eav..eav + 4].copy_from_slice(&[K29_7, K29_7, eav1, eav2]);
    characters
}

/// The symbols of characters from a disparity on, and the disparity after them.
pub fn symbols(positive: bool, characters: &[u16]) -> (Vec<u16>, bool) {
    let mut disparity = positive;
    let mut symbols = Vec::with_capacity(characters.len());
    for &character in characters {
        let (symbol, after) = encode(disparity, character.into()).expect("every byte and every special character has a symbol");
        symbols.push(symbol);
        disparity = after;
    }
    (symbols, disparity)
}

/// The word of a sample: itself on a blanking line, where it already has twelve bits, or shifted at depth 10 (004, 6.1). None if the sample
/// may not be sent (01, "Words of a stream" and "Sending").
fn word_of(format: Format, line: u32, sample: u16) -> Option<u16> {
    match (is_active(line), format.depth) {
        (false, _) => (sample == blanking(format)).then_some(sample),
        (true, 10) => (4..=1019).contains(&sample).then_some(sample << 2),
        (true, _) => (16..=4079).contains(&sample).then_some(sample),
    }
}

/// Samples stream by stream to words; 6 at the lowest index of one that may not be sent.
pub fn row_words(format: Format, line: u32, samples: &[u16]) -> Answer<Vec<u16>> {
    let word = |(i, &sample): (usize, &u16)| word_of(format, line, sample).ok_or((6, i as u64));
    samples.iter().enumerate().map(word).collect()
}

/// What is asked of the sender. If no content bytes are named, zeros are sent.
#[derive(Clone, Copy, Debug)]
pub struct Asked {
    pub format: Format,
    pub line: u32,
    pub positive: bool,
    pub content: Option<[u8; 4]>,
}

/// The symbols of a span and the disparity after it.
pub fn send(asked: Asked, samples: &[u16], room: usize) -> Answer<(Vec<u16>, bool)> {
    let shape = shape(asked.format)?;
    refuse_unless((1..=1125).contains(&asked.line), 2)?;
    refuse_unless(samples.len() == shape.samples(), 3)?;
    refuse_unless(room == shape.symbols(), 4)?;
    let rows = row_words(asked.format, asked.line, samples)?;
    let words = words(asked.format, asked.line, &rows)?;
    Ok(symbols(asked.positive, &characters(shape, &words, asked.content.unwrap_or([0; 4]))))
}

/// How many samples and symbols a span has.
pub fn lengths(format: Format) -> Answer<[usize; 2]> {
    shape(format).map(|shape| [shape.samples(), shape.symbols()])
}

/// The row sent on a blanking line, of all streams.
pub fn blanking_row(format: Format, room: usize) -> Answer<Vec<u16>> {
    let shape = shape(format)?;
    refuse_unless(room == shape.samples(), 4)?;
    Ok(vec![blanking(format); room])
}
