//! A link that never ends.

use crate::{lengths, next, Format, Refusal, Span};

/// A live link: what has arrived of it, as far as a span may still begin there.
#[derive(Clone, Debug)]
pub struct Live {
    format: Format,
    samples: usize,
    kept: Vec<u16>,
    /// The symbols that were given up: the place of the first one that is kept.
    given_up: u64,
}

impl Live {
    /// A fresh link. Refusal 1.
    pub fn new(format: Format) -> Result<Live, Refusal> {
        let (samples, _) = lengths(format).result()?;
        Ok(Live { format, samples, kept: Vec::new(), given_up: 0 })
    }

    /// The spans that end with what arrives, their places counted in all that arrived. Fewer symbols are kept afterwards than a span has.
    /// Refusal 3 where these and what arrives are longer than a recording may be; then nothing of it is taken.
    pub fn arrive(&mut self, symbols: &[u16]) -> Result<Vec<Span>, Refusal> {
        let before = self.kept.len();
        self.kept.extend_from_slice(symbols);
        let (mut spans, mut start) = (Vec::new(), 0);
        loop {
            let mut rows = vec![0; self.samples];
            let answer = next(self.format, &self.kept, start, &mut rows);
            let found = match answer.result() {
                Ok(found) => found,
                Err(refusal) => {
                    self.kept.truncate(before);
                    return Err(refusal);
                }
            };
            start = answer.resume;
            let Some((place, delivery)) = found else { break };
            spans.push(Span { place: self.given_up + place, delivery, rows });
        }
        self.kept.drain(..start as usize);
        self.given_up += start;
        Ok(spans)
    }
}
