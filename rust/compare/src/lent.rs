//! Buffers that are lent to calls, and what calls leave in them.

/// What a call must leave in a lent buffer.
pub enum Left<'a> {
    AsItWas,
    Zero,
    Holds(&'a [u16]),
}

/// How many elements are on each side of a lent buffer, which no call may touch.
const BESIDE: usize = 32;

/// A buffer to be lent to a call, filled with a pattern, as are the elements on each side.
pub struct Lent {
    all: Vec<u16>,
}

impl Lent {
    pub fn new(room: usize) -> Lent {
        Lent { all: (0..room + 2 * BESIDE).map(pattern).collect() }
    }

    pub fn lend(&mut self) -> &mut [u16] {
        let end = self.all.len() - BESIDE;
        &mut self.all[BESIDE..end]
    }

    /// The first place at which it does not hold what a call must leave, and what is there. Places before the buffer are negative.
    pub fn wrong(&self, left: Left) -> Option<(i64, u16)> {
        let mut expected = Lent::new(self.all.len() - 2 * BESIDE);
        match left {
            Left::AsItWas => (),
            Left::Zero => expected.lend().fill(0),
            Left::Holds(plain) => expected.lend().copy_from_slice(plain),
        }
        // Most are the same, and comparing whole buffers is faster than comparing their elements.
        if self.all == expected.all {
            return None;
        }
        let at = (0..self.all.len()).find(|&at| self.all[at] != expected.all[at])?;
        Some((at as i64 - BESIDE as i64, self.all[at]))
    }
}

/// No zeros, and nothing that is a word or a symbol.
fn pattern(at: usize) -> u16 {
    at as u16 | 0x8000
}
