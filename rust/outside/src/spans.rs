//! Random spans to read, sent correctly (01, "A span" and "Sending").

use plain::format::Format;
use plain::span::{characters, shape, symbols, words, Shape, ROW};
use plain::words::{blanking, is_active};
use random::Random;

/// The shape of a format that is known.
pub fn shape_of(format: Format) -> Shape {
    shape(format).expect("a known format")
}

/// The words of all streams, stream by stream, that a line may carry: all values, or only the ends of the range. Random numbers are drawn
/// in the order in which the words are sent, so that the stored inputs stay what they are.
fn rows(random: &mut Random, format: Format, line: u32) -> Vec<u16> {
    let (ends_alone, shape) = (random.seldom(4), shape_of(format));
    let mut rows = vec![blanking(format); shape.samples()];
    if !is_active(line) {
        return rows;
    }
    for (k, t) in (0..ROW).flat_map(|k| (0..shape.streams).map(move |t| (k, t))) {
        rows[t * ROW + k] = match (format.depth, ends_alone) {
            (10, true) => random.pick(&[16, 4076]),
            (10, false) => (random.within(4, 1019) as u16) << 2,
            (_, true) => random.pick(&[16, 4079]),
            (_, false) => random.within(16, 4079) as u16,
        };
    }
    rows
}

/// The interleaved words of a span of a line.
pub fn made_words(random: &mut Random, format: Format, line: u32) -> Vec<u16> {
    let rows = rows(random, format, line);
    words(format, line, &rows).expect("a stream line")
}

/// Its characters, with random content bytes.
pub fn made_characters(random: &mut Random, shape: Shape, words: &[u16]) -> Vec<u16> {
    let [[sav1, sav2], [eav1, eav2]] = [(); 2].map(|()| (random.next() as u16).to_le_bytes());
    characters(shape, words, [sav1, sav2, eav1, eav2])
}

/// Its symbols.
pub fn sent_symbols(random: &mut Random, format: Format, line: u32, positive: bool) -> Vec<u16> {
    let words = made_words(random, format, line);
    symbols(positive, &made_characters(random, shape_of(format), &words)).0
}
