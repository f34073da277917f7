//! Recordings (01, "Receiving and finding"): the reader is tried at every place.

use crate::format::Format;
use crate::read::{window, Delivered};
use crate::span::{shape, Shape};
use crate::{refuse_unless, Answer};

/// The longest recording.
pub const LIMIT: usize = 2_097_152;

/// The first place from `start` on at which the reader accepts, and what it reads there. Fewer symbols than a span has are not a span.
fn first(shape: Shape, depth: u32, symbols: &[u16], start: usize) -> Option<(usize, Delivered)> {
    let accepted = |place: usize| {
        let symbols = symbols.get(place..place + shape.symbols())?;
        window(shape, depth, symbols).ok().map(|delivered| (place, delivered))
    };
    (start..symbols.len()).find_map(accepted)
}

pub fn find(format: Format, symbols: &[u16], start: u64) -> Answer<Option<u64>> {
    let shape = shape(format)?;
    refuse_unless(symbols.len() <= LIMIT, 3)?;
    refuse_unless(start <= symbols.len() as u64, 5)?;
    Ok(first(shape, format.depth, symbols, start as usize).map(|(place, _)| place as u64))
}

/// The span that is found, with its place.
pub fn next(format: Format, symbols: &[u16], start: u64, room: usize) -> Answer<Option<(u64, Delivered)>> {
    let shape = shape(format)?;
    refuse_unless(symbols.len() <= LIMIT, 3)?;
    refuse_unless(room == shape.samples(), 4)?;
    refuse_unless(start <= symbols.len() as u64, 5)?;
    Ok(first(shape, format.depth, symbols, start as usize).map(|(place, delivered)| (place as u64, delivered)))
}

/// Find from 0, read, find again from the end of that span, until there is none.
pub fn delivery(format: Format, symbols: &[u16]) -> Answer<Vec<(u64, Delivered)>> {
    let shape = shape(format)?;
    let mut spans = Vec::new();
    let mut start = 0;
    while let Some(place) = find(format, symbols, start)? {
        let end = place + shape.symbols() as u64;
        spans.push((place, window(shape, format.depth, &symbols[place as usize..end as usize])?));
        start = end;
    }
    Ok(spans)
}
