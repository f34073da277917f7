//! Published values: the code as its standard prints it, and the values of document 01 that are to be run. None of them was computed by a
//! program of this repository.

use crate::calls;
use crate::report::Report;
use crate::spans::{any_content, any_samples};
use brazulint::*;
use plain::span::Asked;
use random::Random;

/// The special characters: negative and positive form, a b c d e i, f g h j.
const SPECIAL: [(u32, &str, &str); 12] = [
    (K28_0, "001111 0100", "110000 1011"),
    (K28_1, "001111 1001", "110000 0110"),
    (K28_2, "001111 0101", "110000 1010"),
    (K28_3, "001111 0011", "110000 1100"),
    (K28_4, "001111 0010", "110000 1101"),
    (K28_5, "001111 1010", "110000 0101"),
    (K28_6, "001111 0110", "110000 1001"),
    (K28_7, "001111 1000", "110000 0111"),
    (K23_7, "111010 1000", "000101 0111"),
    (K27_7, "110110 1000", "001001 0111"),
    (K29_7, "101110 1000", "010001 0111"),
    (K30_7, "011110 1000", "100001 0111"),
];

/// Bytes as Dx.y: x, y, and both forms.
const BYTES: [(u32, u32, &str, &str); 53] = [
    (0, 0, "100111 0100", "011000 1011"),
    (1, 0, "011101 0100", "100010 1011"),
    (2, 0, "101101 0100", "010010 1011"),
    (3, 0, "110001 1011", "110001 0100"),
    (4, 0, "110101 0100", "001010 1011"),
    (5, 0, "101001 1011", "101001 0100"),
    (6, 0, "011001 1011", "011001 0100"),
    (7, 0, "111000 1011", "000111 0100"),
    (8, 0, "111001 0100", "000110 1011"),
    (9, 0, "100101 1011", "100101 0100"),
    (10, 0, "010101 1011", "010101 0100"),
    (11, 0, "110100 1011", "110100 0100"),
    (12, 0, "001101 1011", "001101 0100"),
    (13, 0, "101100 1011", "101100 0100"),
    (14, 0, "011100 1011", "011100 0100"),
    (15, 0, "010111 0100", "101000 1011"),
    (16, 0, "011011 0100", "100100 1011"),
    (17, 0, "100011 1011", "100011 0100"),
    (18, 0, "010011 1011", "010011 0100"),
    (19, 0, "110010 1011", "110010 0100"),
    (20, 0, "001011 1011", "001011 0100"),
    (21, 0, "101010 1011", "101010 0100"),
    (22, 0, "011010 1011", "011010 0100"),
    (23, 0, "111010 0100", "000101 1011"),
    (24, 0, "110011 0100", "001100 1011"),
    (25, 0, "100110 1011", "100110 0100"),
    (26, 0, "010110 1011", "010110 0100"),
    (27, 0, "110110 0100", "001001 1011"),
    (28, 0, "001110 1011", "001110 0100"),
    (29, 0, "101110 0100", "010001 1011"),
    (30, 0, "011110 0100", "100001 1011"),
    (31, 0, "101011 0100", "010100 1011"),
    (0, 1, "100111 1001", "011000 1001"),
    (0, 2, "100111 0101", "011000 0101"),
    (0, 3, "100111 0011", "011000 1100"),
    (0, 4, "100111 0010", "011000 1101"),
    (0, 5, "100111 1010", "011000 1010"),
    (0, 6, "100111 0110", "011000 0110"),
    (0, 7, "100111 0001", "011000 1110"),
    // The alternate form of .7 is in the first three at negative disparity, and in the next three at positive.
    (17, 7, "100011 0111", "100011 0001"),
    (18, 7, "010011 0111", "010011 0001"),
    (20, 7, "001011 0111", "001011 0001"),
    (11, 7, "110100 1110", "110100 1000"),
    (13, 7, "101100 1110", "101100 1000"),
    (14, 7, "011100 1110", "011100 1000"),
    (3, 7, "110001 1110", "110001 0001"),
    (7, 7, "111000 1110", "000111 0001"),
    (12, 7, "001101 1110", "001101 0001"),
    (19, 7, "110010 1110", "110010 0001"),
    (23, 7, "111010 0001", "000101 1110"),
    (28, 7, "001110 1110", "001110 0001"),
    (31, 7, "101011 0001", "010100 1110"),
    (21, 5, "101010 1010", "101010 1010"),
];

pub fn run() -> Report {
    let mut r = Report::default();
    code(&mut r);
    words(&mut r);
    places(&mut r);
    limits(&mut r);
    blanking(&mut r);
    r
}

/// The symbol of a printed form: bit a, which is printed and sent first, is the lowest.
fn symbol(printed: &str) -> u32 {
    printed.chars().filter(|c| *c != ' ').enumerate().map(|(i, c)| c.to_digit(2).expect("a binary digit") << i).sum()
}

fn code(r: &mut Report) {
    for (character, negative, positive) in SPECIAL {
        form(r, character, false, symbol(negative));
        form(r, character, true, symbol(positive));
    }
    for (x, y, negative, positive) in BYTES {
        form(r, y << 5 | x, false, symbol(negative));
        form(r, y << 5 | x, true, symbol(positive));
    }
    let of_01 = [(K28_5, 0x17C, 0x283), (K29_7, 0x05D, 0x3A2), (0x00, 0x0B9, 0x346), (0xB5, 0x155, 0x155)];
    for (character, negative, positive) in of_01 {
        form(r, character, false, negative);
        form(r, character, true, positive);
    }
}

/// One form, both ways. More ones than zeros leave the disparity positive, fewer leave it negative, as many leave it unchanged.
fn form(r: &mut Report, character: u32, positive: bool, symbol: u32) {
    let positive_after = match symbol.count_ones() {
        5 => positive,
        ones => ones > 5,
    };
    let call = || format!("character {character} at positive {positive}");
    r.answer(call, encode(positive, character), EncodeAnswer { known: true, symbol, positive_after });
    r.answer(call, decode(positive, symbol), DecodeAnswer { number: 0, character, positive_after });
    calls::encode(r, positive, character);
    calls::decode(r, positive, symbol);
}

fn words(r: &mut Report) {
    let legal = [0x800, 0x9D0, 0xAB0, 0xB60].map(|word| (word, RepairAnswer { number: 0, word, distance: 0, bit: NO_BIT }));
    let wrong = [(0x801, 0x800, 0), (0x8D0, 0x9D0, 8), (0x000, 0x800, 11)];
    let repaired = wrong.map(|(given, word, bit)| (given, RepairAnswer { number: 0, word, distance: 1, bit }));
    let refused = (0x803, RepairAnswer { number: 8, word: 0, distance: 0, bit: NO_BIT });
    for (given, answer) in legal.into_iter().chain(repaired).chain([refused]) {
        r.answer(|| format!("repair({given:#x})"), repair(given), answer);
        calls::repair(r, given);
    }
    for (line, ln0, ln1) in [(1, 0x810, 0x800), (42, 0xAA0, 0x800), (127, 0x7F0, 0x800), (128, 0x800, 0x810), (1125, 0x650, 0x880)] {
        r.answer(|| format!("line_words({line})"), line_words(StreamLine(line)), LineWordsAnswer { number: 0, ln0, ln1 });
        let named = ReadLineWordsAnswer { number: 0, line: StreamLine(line) };
        r.answer(|| format!("read_line_words of {line}"), read_line_words(ln0, ln1), named);
        calls::line_words(r, line);
        calls::read_line_words(r, ln0, ln1);
    }
    for line in [0, 1126] {
        r.answer(|| format!("line_words({line})"), line_words(StreamLine(line)), LineWordsAnswer { number: 2, ln0: 0, ln1: 0 });
        calls::line_words(r, line);
    }
}

fn places(r: &mut Report) {
    let first = PlaceAnswer { number: 0, image: 2, image_line: 1, stream_line: StreamLine(42), sample: 0 };
    let last = PlaceAnswer { number: 0, image: 4, image_line: 1080, stream_line: StreamLine(1121), sample: 1919 };
    for (line, sample, answer) in [(1, 1, first), (2160, 3839, last)] {
        r.answer(|| format!("place({line}, {sample})"), place(PictureLine(line), sample), answer);
        calls::place(r, line, sample);
    }
    for (number, samples, symbols) in [(1, 3840, 7920), (2, 3840, 9504), (3, 7680, 19008)] {
        for depth in [10, 12] {
            let answer = LengthsAnswer { number: 0, samples, symbols };
            r.answer(|| format!("lengths({number}, {depth})"), lengths(Format::plain(number, depth)), answer);
            calls::lengths(r, plain::format::Format::plain(number, depth));
        }
    }
}

/// At 12 bits samples 15 and 4080 are refused, 16 and 4079 sent; lines 0 and 1126 are refused.
fn limits(r: &mut Report) {
    let (mut random, format) = (Random(1), plain::format::Format::plain(1, 12));
    for (line, sample, number) in [(42, 15, 6), (42, 16, 0), (42, 4079, 0), (42, 4080, 6), (0, 256, 2), (1126, 256, 2)] {
        let mut samples = any_samples(&mut random, format, 42);
        samples[3000] = sample;
        let place = if number == 6 { 3000 } else { 0 };
        let mut symbols = vec![0; 7920];
        let answer = send(calls::given(format), Request::new(StreamLine(line), false), &samples, &mut symbols);
        r.answer(|| format!("send of {sample} on line {line}"), (answer.number, answer.place), (number, place));
        let content = Some(any_content(&mut random));
        let _ = calls::send(r, Asked { format, line, positive: false, content }, &samples, 7920);
    }
}

/// 004, 6.8, by the printed forms: two words of 800 are the bytes 00 08 80, two of 100 are 00 01 10, and neither changes the disparity. So
/// the ancillary area of a span of format 1, from symbol 5796 on, is one of these three again and again, and so is the fill, from 6600 on.
fn blanking(r: &mut Report) {
    let forms = |bytes: [(u32, u32); 3]| {
        let of = |(x, y)| BYTES.iter().find(|byte| (byte.0, byte.1) == (x, y)).expect("a byte that is printed");
        [bytes.map(|byte| symbol(of(byte).2) as u16), bytes.map(|byte| symbol(of(byte).3) as u16)]
    };
    let (of_100, of_800) = (forms([(0, 0), (1, 0), (16, 0)]), forms([(0, 0), (8, 0), (0, 4)]));
    assert_eq!(of_800, [[0x0B9, 0x0A7, 0x139], [0x346, 0x358, 0x2C6]]);
    for (component, area) in [(1, of_100), (2, of_100), (3, of_100), (4, of_100), (5, of_800), (6, of_800)] {
        let (format, mut symbols) = (Format::plain(1, 12).carrying(component), [0; 7920]);
        for sample in (16..4080).step_by(331) {
            let sent = send(format, Request::new(StreamLine(42), false), &[sample; 3840], &mut symbols);
            let sign = usize::from(sent.positive_after);
            let right = symbols[5796..6600].chunks(3).all(|three| three == area[sign]);
            r.holds(|| format!("component {component}: another ancillary area"), sent.number == 0 && right);
            r.holds(|| format!("component {component}: another fill"), symbols[6600..].chunks(3).all(|three| three == of_100[sign]));
        }
    }
}
