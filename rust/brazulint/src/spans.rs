//! The spans of a recording.

use crate::{lengths, next, Delivery, Format, Refusal};
use std::iter::FusedIterator;

/// A span that was delivered, with its rows.
#[derive(Clone, Debug, PartialEq, Eq)]
pub struct Span {
    /// Its first symbol in the recording.
    pub place: u64,
    pub delivery: Delivery,
    /// Twelve-bit words as received, stream by stream.
    pub rows: Vec<u16>,
}

/// Every span of a recording in order; a refusal, if there is one, is the last item.
#[derive(Clone, Debug)]
#[must_use = "an iterator does nothing until it is asked"]
pub struct Spans<'a> {
    format: Format,
    symbols: &'a [u16],
    /// Where to continue; none after the last span and after a refusal.
    start: Option<u64>,
}

/// The spans of a recording, each found, read, and left behind.
pub fn spans(format: Format, symbols: &[u16]) -> Spans<'_> {
    Spans { format, symbols, start: Some(0) }
}

impl Spans<'_> {
    /// The span at or after a start, and where to continue after it.
    fn after(&self, start: u64) -> Result<Option<(Span, u64)>, Refusal> {
        let (samples, _) = lengths(self.format).result()?;
        let mut rows = vec![0; samples];
        let answer = next(self.format, self.symbols, start, &mut rows);
        let found = answer.result()?;
        Ok(found.map(|(place, delivery)| (Span { place, delivery, rows }, answer.resume)))
    }
}

impl Iterator for Spans<'_> {
    type Item = Result<Span, Refusal>;

    fn next(&mut self) -> Option<Self::Item> {
        let start = self.start.take()?;
        match self.after(start) {
            Ok(found) => {
                let (span, resume) = found?;
                self.start = Some(resume);
                Some(Ok(span))
            }
            Err(refusal) => Some(Err(refusal)),
        }
    }
}

impl FusedIterator for Spans<'_> {}
