//! The ways in which a span can be wrong, or look wrong: one or more for each row of the table of refusals (01, "Refusal numbers").

use crate::spans::Draft;
use plain::code::{encode, meaning};
use plain::words::{words_of, xyz};
use random::Random;

/// The stage at which a change is made.
#[derive(Clone, Copy)]
pub enum Change {
    /// To the words, before the CRCC may be mended.
    Words(fn(&mut Random, &mut Draft)),
    /// To the words, after that.
    Late(fn(&mut Random, &mut Draft)),
    Characters(fn(&mut Random, &Draft, &mut [u16])),
    Symbols(fn(&mut Random, &Draft, &mut [u16])),
}

use Change::{Characters, Late, Symbols, Words};

pub const DAMAGES: [(&str, Change); 43] = [
    ("nothing", Words(|_, _| ())),
    ("a bit of a fixed word of a SAV", Words(|random, draft| fixed_bit(random, draft, 0))),
    ("a bit of a fixed word of an EAV", Words(|random, draft| fixed_bit(random, draft, 1924))),
    ("another word for a fixed one", Words(another_fixed)),
    ("one bit of an XYZ", Words(|random, draft| xyz_bits(random, draft, 1))),
    ("two bits of an XYZ", Words(|random, draft| xyz_bits(random, draft, 2))),
    ("three bits of an XYZ", Words(|random, draft| xyz_bits(random, draft, 3))),
    ("one bit of each XYZ", Words(|random, draft| drop(bit_of_xyzs(random, draft, u64::MAX)))),
    ("one bit of some XYZs", Words(some_xyzs)),
    ("the other H", Words(|random, draft| another_xyz(random, draft, 0x100))),
    ("the other V", Words(|random, draft| another_xyz(random, draft, 0x200))),
    ("the other V and H", Words(|random, draft| another_xyz(random, draft, 0x300))),
    ("V of all SAVs", Words(|_, draft| all_v(draft, 3))),
    ("V of all EAVs", Words(|_, draft| all_v(draft, 1927))),
    ("a bit of LN0 of stream 1", Words(|random, draft| bit_of(random, draft, 1928, 0))),
    ("a bit of LN1 of stream 1", Words(|random, draft| bit_of(random, draft, 1929, 0))),
    ("a bit of another stream's line words", Words(another_streams_line)),
    ("a reserved bit of all LN0", Words(|random, draft| bit_of_all(random, draft, 1928, &[0, 1, 2, 3]))),
    ("a reserved bit of all LN1", Words(|random, draft| bit_of_all(random, draft, 1929, &[0, 1, 2, 3, 8, 9, 10]))),
    ("the guard bit of all line words", Words(guard_of_all)),
    ("line 0", Words(|_, draft| all_lines(draft, words_of(0)))),
    ("line 1126", Words(|_, draft| all_lines(draft, words_of(1126)))),
    ("line 2047", Words(|_, draft| all_lines(draft, words_of(2047)))),
    ("words of lines 127 and 128", Words(|_, draft| all_lines(draft, [words_of(127)[0], words_of(128)[1]]))),
    ("words of lines 128 and 127", Words(|_, draft| all_lines(draft, [words_of(128)[0], words_of(127)[1]]))),
    ("another line", Words(|random, draft| all_lines(draft, words_of(random.within(1, 1125))))),
    ("a bit of CRCC0", Late(|random, draft| bit_of_a_stream(random, draft, 1930))),
    ("a bit of CRCC1", Late(|random, draft| bit_of_a_stream(random, draft, 1931))),
    ("a word at the end of what samples have", Words(row_word)),
    ("low bits in a word of the row", Words(low_bits)),
    ("any word of the row", Words(|random, draft| any_of(random, draft, 4, 1924))),
    ("the first fill word", Late(|random, draft| fill(random, draft, 0))),
    ("the last fill word", Late(|random, draft| fill(random, draft, draft.shape.fill - 1))),
    ("a fill word", Late(any_fill)),
    ("an ancillary word", Late(|random, draft| any_of(random, draft, 1932, 1932 + draft.shape.ancillary))),
    ("a special character for any", Characters(|random, _, all| all[random.below(all.len())] = random.within(256, 267) as u16)),
    ("a byte for a special character", Characters(|random, draft, all| at_special(draft, all, random.pick(&[0, 1, 2, 3]), 0))),
    ("K28.5 for a content byte", Characters(|random, draft, all| at_special(draft, all, random.pick(&[4, 5]), 261))),
    ("no symbol", Symbols(no_symbol)),
    ("the form for the other disparity", Symbols(other_form)),
    ("a symbol above 1023", Symbols(above)),
    ("symbol 0", Symbols(|random, _, all| all[random.below(all.len())] = 0)),
    ("one bit of a symbol", Symbols(|random, _, all| all[random.below(all.len())] ^= 1 << random.below(10))),
];

/// The symbols of a span with some changes, each at its stage. Mended, the CRCC is that of the changed words.
pub fn damaged(random: &mut Random, mut draft: Draft, changes: &[Change], mended: bool) -> Vec<u16> {
    for change in changes {
        if let Words(change) = change {
            change(random, &mut draft);
        }
    }
    if mended {
        draft.mend();
    }
    for change in changes {
        if let Late(change) = change {
            change(random, &mut draft);
        }
    }
    let mut characters = draft.characters();
    for change in changes {
        if let Characters(change) = change {
            change(random, &draft, &mut characters);
        }
    }
    let mut symbols = plain::span::symbols(draft.positive, &characters).0;
    for change in changes {
        if let Symbols(change) = change {
            change(random, &draft, &mut symbols);
        }
    }
    symbols
}

// ---- Timing codes.

fn stream(random: &mut Random, draft: &Draft) -> usize {
    random.below(draft.shape.streams)
}

/// Inverts one bit of word k of stream t.
fn bit_of(random: &mut Random, draft: &mut Draft, k: usize, t: usize) {
    let at = draft.at(k, t);
    draft.words[at] ^= 1 << random.below(12);
}

fn bit_of_a_stream(random: &mut Random, draft: &mut Draft, k: usize) {
    let t = stream(random, draft);
    bit_of(random, draft, k, t);
}

fn fixed_bit(random: &mut Random, draft: &mut Draft, first: usize) {
    let k = first + random.below(3);
    bit_of_a_stream(random, draft, k);
}

fn another_fixed(random: &mut Random, draft: &mut Draft) {
    let first = random.pick(&[0, 1924]);
    any_of(random, draft, first, first + 3);
}

/// Replaces one of the words from first up to end, which is excluded, with any word.
fn any_of(random: &mut Random, draft: &mut Draft, first: usize, end: usize) {
    let at = draft.at(first + random.below(end - first), stream(random, draft));
    draft.words[at] = random.below(4096) as u16;
}

/// Inverts some bits of one XYZ, no bit twice.
fn xyz_bits(random: &mut Random, draft: &mut Draft, count: u32) {
    let at = draft.at(random.pick(&[3, 1927]), stream(random, draft));
    let word = draft.words[at];
    while (draft.words[at] ^ word).count_ones() < count {
        let bit = 1 << random.below(12);
        draft.words[at] = draft.words[at] & !bit | !word & bit;
    }
}

/// Inverts one bit of each XYZ of a set, in which bit i stands for XYZ i of the span: those of the SAVs, then those of the EAVs. Gives each
/// with its bit.
pub fn bit_of_xyzs(random: &mut Random, draft: &mut Draft, set: u64) -> Vec<(usize, usize)> {
    let streams = draft.shape.streams;
    let invert = |i: usize| {
        let (at, bit) = (draft.at([3, 1927][i / streams], i % streams), random.below(12));
        draft.words[at] ^= 1 << bit;
        (i, bit)
    };
    (0..2 * streams).filter(|i| set >> i & 1 == 1).map(invert).collect()
}

pub fn some_xyzs(random: &mut Random, draft: &mut Draft) {
    let set = random.next();
    drop(bit_of_xyzs(random, draft, set));
}

/// The legal XYZ with V or H, or both, inverted.
fn turned(word: u16, bits: u16) -> u16 {
    let turned = word ^ bits;
    xyz(turned & 0x200 != 0, turned & 0x100 != 0)
}

fn another_xyz(random: &mut Random, draft: &mut Draft, bits: u16) {
    let at = draft.at(random.pick(&[3, 1927]), stream(random, draft));
    draft.words[at] = turned(draft.words[at], bits);
}

fn all_v(draft: &mut Draft, k: usize) {
    for t in 0..draft.shape.streams {
        let at = draft.at(k, t);
        draft.words[at] = turned(draft.words[at], 0x200);
    }
}

// ---- Line words.

fn another_streams_line(random: &mut Random, draft: &mut Draft) {
    let (k, t) = (random.pick(&[1928, 1929]), 1 + random.below(draft.shape.streams - 1));
    bit_of(random, draft, k, t);
}

/// Inverts the same bit in every stream's word k.
fn bit_of_all(random: &mut Random, draft: &mut Draft, k: usize, bits: &[u16]) {
    let bit = 1 << random.pick(bits);
    for t in 0..draft.shape.streams {
        let at = draft.at(k, t);
        draft.words[at] ^= bit;
    }
}

fn guard_of_all(random: &mut Random, draft: &mut Draft) {
    let k = random.pick(&[1928, 1929]);
    bit_of_all(random, draft, k, &[11]);
}

fn all_lines(draft: &mut Draft, words: [u16; 2]) {
    for t in 0..draft.shape.streams {
        for (i, word) in words.into_iter().enumerate() {
            let at = draft.at(1928 + i, t);
            draft.words[at] = word;
        }
    }
}

// ---- Row and fill.

/// The words next to both ends of the range of samples, 16 to 4079.
fn row_word(random: &mut Random, draft: &mut Draft) {
    let k = random.pick(&[4, 5, 1000, 1922, 1923]);
    let at = draft.at(k, stream(random, draft));
    draft.words[at] = random.pick(&[0, 12, 15, 16, 17, 4076, 4079, 4080, 4095]);
}

fn low_bits(random: &mut Random, draft: &mut Draft) {
    let at = draft.at(4 + random.below(1920), stream(random, draft));
    draft.words[at] |= random.pick(&[1, 2, 3]);
}

fn fill(random: &mut Random, draft: &mut Draft, at: usize) {
    let at = draft.shape.words_before_fill() + at;
    draft.words[at] = random.pick(&[0x000, 0x101, 0x900, 0x140, 0x800, 0xFFF]);
}

fn any_fill(random: &mut Random, draft: &mut Draft) {
    let at = random.below(draft.shape.fill);
    fill(random, draft, at);
}

// ---- Characters and symbols.

/// Puts a character at one of: both K28.5, both K29.7, the first content byte of the SAV and of the EAV.
fn at_special(draft: &Draft, all: &mut [u16], which: usize, character: u16) {
    let eav = draft.shape.eav_symbol();
    all[[0, 1, eav, eav + 1, 2, eav + 2][which]] = character;
}

fn no_symbol(random: &mut Random, _: &Draft, all: &mut [u16]) {
    let none = |symbol: u16| [false, true].iter().all(|&positive| meaning(positive, symbol).is_none());
    let symbols: Vec<u16> = (0..1024).filter(|&symbol| none(symbol)).collect();
    all[random.below(all.len())] = random.pick(&symbols);
}

/// The other of a character's two symbols, at the first place from a random one on where there are two; often at the start.
fn other_form(random: &mut Random, _: &Draft, all: &mut [u16]) {
    let from = random.pick(&[0, 1, random.0 as usize % all.len()]);
    for symbol in &mut all[from..] {
        let character = [false, true].iter().find_map(|&positive| meaning(positive, *symbol)).map_or(0, |(character, _)| character);
        let other = [false, true].iter().filter_map(|&positive| encode(positive, character.into())).find(|(other, _)| other != symbol);
        if let Some((other, _)) = other {
            *symbol = other;
            return;
        }
    }
}

/// The symbol with a bit above its ten, or any large number.
fn above(random: &mut Random, _: &Draft, all: &mut [u16]) {
    let at = random.pick(&[0, 1, 2, all.len() / 2, all.len() - 1]);
    all[at] = match random.below(4) {
        0 => 65_535,
        1 => 1024,
        _ => all[at] | 1 << random.within(10, 15),
    };
}
