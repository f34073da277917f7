//! The words of a stream by arithmetic (004, 6.2 to 6.4), where `plain` searches and divides bit by bit.

use plain::words::is_active;

/// 004, tables 6 and 7, for VH = 00, 01, 10, 11.
pub const XYZ: [u16; 4] = [0x800, 0x9D0, 0xAB0, 0xB60];

#[inline]
pub fn xyz(line: u32, eav: bool) -> u16 {
    XYZ[2 * !is_active(line) as usize + eav as usize]
}

/// V and H of the legal word that is at most one bit away, and the bit that is wrong, in its place; 0 if none is.
#[inline]
pub fn repair(word: u16) -> Option<(usize, u16)> {
    (0..4).map(|vh| (vh, word ^ XYZ[vh])).find(|&(_, wrong)| wrong.count_ones() <= 1)
}

/// b11 is the opposite of b10 (004, tables 8 and 9).
#[inline]
fn guarded(low: u16) -> u16 {
    low | (!low & 1 << 10) << 1
}

/// 004, table 8.
#[inline]
pub fn line_words(line: u32) -> [u16; 2] {
    [guarded((line % 128 << 4) as u16), guarded((line / 128 << 4) as u16)]
}

/// The line that two words name: the one for which exactly these are sent.
#[inline]
pub fn named(words: [u16; 2]) -> Option<u32> {
    let line = u32::from((words[0] >> 4) % 128 + (words[1] >> 4) % 16 * 128);
    ((1..=1125).contains(&line) && line_words(line) == words).then_some(line)
}

/// The CRC of 004, 6.4, twelve bits at a time: bit i of the register is CRCCi. No bit that a word flips is reached within that word.
#[inline]
pub fn step(register: u32, word: u16) -> u32 {
    let x = (register ^ word as u32) % 4096;
    register / 4096 ^ x * 64 ^ x * 4 ^ x * 2
}

/// 004, table 9.
#[inline]
pub fn crcc_words(register: u32) -> [u16; 2] {
    [guarded((register % 512 * 4) as u16), guarded((register / 512 * 4) as u16)]
}
