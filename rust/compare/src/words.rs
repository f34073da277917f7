//! The words of a stream: repair, line words, CRCC.

use crate::calls;
use crate::report::{in_two, Report};
use plain::words::words_of;
use random::Random;

pub fn run() -> Report {
    let mut r = Report::default();
    repairs(&mut r);
    lines(&mut r);
    lines_read(&mut r);
    r.add(in_two(pairs));
    r.add(in_two(runs));
    r
}

/// Every number of sixteen bits, and larger ones; and what must be answered for each bit of each legal word, whatever plain says.
fn repairs(r: &mut Report) {
    let above = [0x10800, 0x10801, 0x1_0000, 0x1_09D0, 0x2_0AB0, 0x8000_0B60, 0xFFFF_0800, 0x1000_0800, u32::MAX - 1, u32::MAX];
    for word in (0..=65_535).chain(above).chain((1..=32).map(|n| (n << 16) + 0x800)) {
        calls::repair(r, word);
    }
    for (legal, bit) in [0x800, 0x9D0, 0xAB0, 0xB60].into_iter().flat_map(|legal| (0..12).map(move |bit| (legal, bit))) {
        r.answer(|| format!("bit {bit} of {legal:#x}"), brazulint::repair(legal ^ 1 << bit).result(), Ok((legal, 1, Some(bit))));
    }
}

fn lines(r: &mut Report) {
    let above = [65_535, 65_536, 65_537, 65_578, 65_536 + 1125, 65_536 + 1126, (1 << 24) + 42, (1 << 31) + 1, u32::MAX - 1, u32::MAX];
    for line in (0..=2047).chain(2048..=2200).chain(above) {
        calls::line_words(r, line);
    }
}

/// Every line's words, the same with one and with two bits changed, and with a bit above the twelve.
fn lines_read(r: &mut Report) {
    let mut random = Random(0x11);
    for line in 0..=2047 {
        let [ln0, ln1] = words_of(line).map(u32::from);
        calls::read_line_words(r, ln0, ln1);
        calls::read_line_words(r, ln1, ln0);
        let other = words_of(random.within(0, 2047)).map(u32::from);
        calls::read_line_words(r, ln0, other[1]);
        calls::read_line_words(r, other[0], ln1);
        for bit in 0..24 {
            let both = (ln1 << 12 | ln0) ^ 1 << bit;
            calls::read_line_words(r, both & 0xFFF, both >> 12);
            let both = both ^ 1 << random.below(24);
            calls::read_line_words(r, both & 0xFFF, both >> 12);
        }
        let above = 1 << random.within(12, 31);
        calls::read_line_words(r, ln0 | above, ln1);
        calls::read_line_words(r, ln0, ln1 | above);
    }
}

/// All pairs of words that look like line words, or nearly.
fn pairs(part: usize, r: &mut Report) {
    let mut words: Vec<u32> =
        [0, 1, 15, 16, 0x7FF, 0x800, 0x801, 0x80F, 0xBFF, 0xC00, 0xFFF, 4096, 0x1800, 65_535, 65_536, u32::MAX].into();
    words.extend((0..128).map(|low| u32::from(words_of(low)[0])));
    words.extend((0..128).map(|low| u32::from(words_of(low)[0] ^ 0x800)));
    words.extend((0..16).map(|high| u32::from(words_of(high * 128)[1])));
    words.extend((0..16).map(|high| (high << 4) ^ 0x400));
    for &ln0 in words.iter().skip(part).step_by(2) {
        words.iter().for_each(|&ln1| calls::read_line_words(r, ln0, ln1));
    }
}

/// Runs of many lengths; every third has a word above 4095.
fn runs(part: usize, r: &mut Report) {
    let mut random = Random(0x22 + part as u64);
    let lengths = (0..=80).chain([100, 127, 128, 129, 255, 256, 1000, 1919, 1920, 1921, 1925, 1926, 1927, 4095, 4096, 10_000, 40_000]);
    for length in lengths.filter(|length| length % 2 == part) {
        for kind in 0..6 {
            let mut words = match kind {
                0 => vec![0; length],
                1 => vec![0xFFF; length],
                _ => random.numbers(length, 4096),
            };
            if kind % 3 == 2 && length > 0 {
                let at = random.pick(&[0, length / 2, length - 1]);
                words[at] = random.pick(&[4096, 4097, 0x1800, 0x8000, 0xF800, 65_535]);
            }
            calls::crcc(r, &words);
        }
    }
}
