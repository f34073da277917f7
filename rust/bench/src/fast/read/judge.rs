//! Judging: a span is read into rows that no caller gets.

use super::{accepted, Tables};
use brazulint::Delivery;
use plain::format::Format;
use plain::span::{shape, Shape, ROW};
use plain::{refuse_unless, Answer};

/// Keeps rows of its own from call to call, so that none are allocated or cleared again.
pub struct Judge<'a> {
    pub(super) tables: &'a Tables,
    pub(super) rows: [u16; 4 * ROW],
}

impl Judge<'_> {
    pub fn new(tables: &Tables) -> Judge<'_> {
        Judge { tables, rows: [0; 4 * ROW] }
    }

    /// What a span says about itself, its words left in the first rows; none if it is refused.
    pub(super) fn accepted(&mut self, shape: Shape, depth: u32, symbols: &[u16]) -> Option<Delivery> {
        accepted(self.tables, shape, depth, symbols, &mut self.rows[..shape.samples()])
    }

    #[inline(never)]
    pub fn judge(&mut self, format: Format, symbols: &[u16]) -> Answer<Delivery> {
        let (shape, depth) = (shape(format)?, format.depth);
        refuse_unless(symbols.len() == shape.symbols(), 3)?;
        let refusal = || plain::read::window(shape, depth, symbols).expect_err("something was wrong");
        self.accepted(shape, depth, symbols).ok_or_else(refusal)
    }
}
