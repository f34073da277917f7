//! Recordings of the greatest length, some of them made to keep the finder busy (01, "Receiving and finding").

use outside::spans::{made_characters, made_words, sent_symbols, shape_of};
use plain::code::{K28_5, K29_7};
use plain::format::Format;
use plain::read::window;
use plain::recording::LIMIT;
use plain::span::{symbols, words, Shape, ROW};
use plain::Refused;
use random::Random;

/// K28.5 at negative and at positive disparity.
const COMMAS: [u16; 2] = [0x17C, 0x283];

/// Symbols of a span that are begun before another: more than its SAV has in any format.
pub const BEGUN: usize = 30;

/// The format of all spans in them.
pub const fn spans_of(number: u32) -> Format {
    Format::plain(number, 12)
}

pub fn noise(random: &mut Random) -> Vec<u16> {
    (0..LIMIT).map(|_| random.next() as u16 % 1024).collect()
}

pub fn noise_without_commas(random: &mut Random) -> Vec<u16> {
    let mut symbols = noise(random);
    symbols.iter_mut().filter(|symbol| COMMAS.contains(symbol)).for_each(|symbol| *symbol ^= 1);
    symbols
}

pub fn commas() -> Vec<u16> {
    (0..LIMIT).map(|i| COMMAS[i % 2]).collect()
}

/// K28.5 K28.5 byte, repeated: every third place looks like the start of a span.
pub fn false_starts() -> Vec<u16> {
    let characters: Vec<u16> = (0..LIMIT).map(|i| if i % 3 == 2 { 0 } else { K28_5 }).collect();
    symbols(false, &characters).0
}

/// The characters of an active line's span.
fn span_characters(random: &mut Random, format: Format) -> Vec<u16> {
    let words = made_words(random, format, 100);
    made_characters(random, shape_of(format), &words)
}

/// The first `count` symbols of an active line's span, repeated: every `count` places there seems to be a span for that many symbols.
pub fn beginnings(format: Format, count: usize) -> Vec<u16> {
    let beginning = &span_characters(&mut Random(8), format)[..count];
    let characters: Vec<u16> = (0..LIMIT).map(|i| beginning[i % count]).collect();
    symbols(false, &characters).0
}

/// Spans one after another, all sent correctly.
pub fn sent_spans(format: Format) -> Vec<u16> {
    let mut random = Random(9);
    repeated(|| sent_symbols(&mut random, format, 100, false))
}

/// The last byte of the last fill word is wrong: test 20 passes, and test 26 fails at the last place.
pub fn wrong_last_fills(format: Format) -> Vec<u16> {
    let (mut random, shape) = (Random(5), shape_of(format));
    repeated(|| {
        let mut characters = span_characters(&mut random, format);
        characters[shape.symbols() - 1] ^= 1;
        refused_span(&mut random, format, &characters, (26, shape.words() as u64 - 1))
    })
}

/// Bytes of any kind in the ancillary area, after three as they are sent, so that they are read one by one.
fn fill_area(random: &mut Random, shape: Shape, characters: &mut [u16]) {
    let (area, fill) = (shape.eav_symbol() + 12 * shape.streams + 3, shape.words_before_fill() / 2 * 3);
    characters[area..fill].iter_mut().for_each(|character| *character = random.next() as u16 % 256);
}

/// The beginning of a span.
fn begun(random: &mut Random, format: Format) -> Vec<u16> {
    symbols(false, &span_characters(random, format)[..BEGUN]).0
}

/// Such spans, each after the beginning of another. They are accepted, and where a search starts the finder reads what was begun in vain.
pub fn begun_twice(format: Format) -> Vec<u16> {
    let (mut random, shape) = (Random(7), shape_of(format));
    let beginning = begun(&mut random, format);
    repeated(|| {
        let mut characters = span_characters(&mut random, format);
        fill_area(&mut random, shape, &mut characters);
        let span = symbols(random.seldom(2), &characters).0;
        assert!(window(shape, format.depth, &span).is_ok());
        [beginning.clone(), span].concat()
    })
}

/// The same with a last picture word that no sample has: only test 25 fails, the last that is tried.
pub fn begun_twice_and_refused(format: Format) -> Vec<u16> {
    let (mut random, shape) = (Random(7), shape_of(format));
    let beginning = begun(&mut random, format);
    repeated(|| {
        let mut rows: Vec<u16> = (0..shape.samples()).map(|_| random.within(16, 4079) as u16).collect();
        rows[shape.samples() - 1] = 0;
        let words = words(format, 100, &rows).expect("a stream line");
        let mut characters = made_characters(&mut random, shape, &words);
        fill_area(&mut random, shape, &mut characters);
        let last = (shape.streams * (4 + ROW)) as u64 - 1;
        [beginning.clone(), refused_span(&mut random, format, &characters, (25, last))].concat()
    })
}

/// A special character where a byte should be, 30 before the end: test 20 fails there.
pub fn late_special_characters(format: Format) -> Vec<u16> {
    let (mut random, place) = (Random(5), shape_of(format).symbols() - 30);
    repeated(|| {
        let mut characters = span_characters(&mut random, format);
        characters[place] = K29_7;
        refused_span(&mut random, format, &characters, (20, place as u64))
    })
}

/// The symbols of a span that is refused. Its refusal, with the place, is given.
fn refused_span(random: &mut Random, format: Format, characters: &[u16], refused: Refused) -> Vec<u16> {
    let span = symbols(random.seldom(2), characters).0;
    assert_eq!(window(shape_of(format), format.depth, &span).err(), Some(refused));
    span
}

/// As many spans as there is room for, and the beginning of one more.
fn repeated(mut span: impl FnMut() -> Vec<u16>) -> Vec<u16> {
    let mut recording = Vec::new();
    while recording.len() < LIMIT {
        recording.extend(span());
    }
    recording.truncate(LIMIT);
    recording
}
