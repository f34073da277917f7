//! Finding spans in a recording (01, "Receiving and finding"): many symbols at once are searched for K28.5 twice, and the reader is called
//! only there. After a refusal the search continues one symbol further.

use super::judge::Judge;
use super::{Reader, Tables, NEGATIVE, POSITIVE};
use brazulint::Delivery;
use plain::format::Format;
use plain::recording::LIMIT;
use plain::span::{shape, Shape};
use plain::{refuse_unless, Answer};

/// Places that are examined together.
const PIECE: usize = 64;

/// Symbols that are examined before a span is read.
const LOOK: usize = 16;

/// 1 for K28.5 in either form, else 0. A number and no branch, so that a piece is examined many symbols at a time.
#[inline(always)]
fn comma(symbol: u16) -> u16 {
    (symbol == 0x17C) as u16 | (symbol == 0x283) as u16
}

/// Whether it is in a piece.
#[inline(always)]
fn once(piece: &[u16]) -> bool {
    piece.iter().fold(0, |any, &symbol| any | comma(symbol)) != 0
}

/// Whether it is in a piece twice in a row; the piece has one more symbol.
#[inline(always)]
fn twice(piece: &[u16]) -> bool {
    piece.iter().zip(&piece[1..]).fold(0, |any, (&one, &two)| any | comma(one) & comma(two)) != 0
}

/// Whether a span may begin at one of the places of a piece. For whole pieces the length is a constant.
#[inline(always)]
fn may_have_start(piece: &[u16]) -> bool {
    match <&[u16; PIECE + 1]>::try_from(piece) {
        Ok(whole) => once(&whole[..PIECE]) && twice(whole),
        Err(_) => twice(piece),
    }
}

/// K28.5 twice, in its two forms, and then something else.
#[inline(always)]
fn starts(symbols: &[u16]) -> bool {
    comma(symbols[0]) == 1 && symbols[0] ^ symbols[1] == 0x3FF && comma(symbols[2]) == 0
}

/// Whether bytes follow to the end of what is given. It stops as soon as they do not: at another start, for one.
fn bytes_follow(tables: &Tables, symbols: &[u16]) -> bool {
    // The two forms in alternation bring the disparity back to that of the first.
    let mask = if symbols[0] == tables.k28_5[1] { POSITIVE } else { NEGATIVE };
    let mut reader = Reader { tables, symbols, at: 2, mask, bad: 0 };
    while reader.at < symbols.len() && reader.bad == 0 {
        if symbols[reader.at] > 1023 {
            return false;
        }
        // Sound: the symbol is there, and has ten bits.
        unsafe { reader.byte() };
    }
    reader.bad == 0
}

/// The first span from a place on, its words left in the judge's rows. The reader always goes through a span to its end. So it is called
/// only after a check of the first symbols, which noise does not pass; and within a span that it refused, after a check of all up to the
/// EAV, so that many starts close to each other do not cost that many spans.
fn first(judge: &mut Judge, shape: Shape, depth: u32, symbols: &[u16], start: usize) -> Option<(usize, Delivery)> {
    let end = (symbols.len() + 1).saturating_sub(shape.symbols());
    let (mut from, mut refused_until) = (start, 0);
    while from < end {
        let to = end.min(from + PIECE);
        if may_have_start(&symbols[from..to + 1]) {
            for place in from..to {
                if !starts(&symbols[place..place + 3]) {
                    continue;
                }
                let window = &symbols[place..place + shape.symbols()];
                let look = if place < refused_until { shape.eav_symbol() } else { LOOK };
                if bytes_follow(judge.tables, &window[..look]) {
                    if let Some(delivery) = judge.accepted(shape, depth, window) {
                        return Some((place, delivery));
                    }
                    refused_until = place + shape.symbols();
                }
            }
        }
        from = to;
    }
    None
}

/// The first place at or after a start where the reader accepts.
#[inline(never)]
pub fn find(judge: &mut Judge, format: Format, symbols: &[u16], start: u64) -> Answer<Option<u64>> {
    let shape = shape(format)?;
    refuse_unless(symbols.len() <= LIMIT, 3)?;
    refuse_unless(start <= symbols.len() as u64, 5)?;
    Ok(first(judge, shape, format.depth, symbols, start as usize).map(|(place, _)| place as u64))
}

/// The same with what is read there. Rows stay as they were if there is none, so it is read into others first.
#[inline(never)]
pub fn next(judge: &mut Judge, format: Format, symbols: &[u16], start: u64, rows: &mut [u16]) -> Answer<Option<(u64, Delivery)>> {
    let shape = shape(format)?;
    refuse_unless(symbols.len() <= LIMIT, 3)?;
    refuse_unless(rows.len() == shape.samples(), 4)?;
    refuse_unless(start <= symbols.len() as u64, 5)?;
    let found = first(judge, shape, format.depth, symbols, start as usize);
    if found.is_some() {
        rows.copy_from_slice(&judge.rows[..shape.samples()]);
    }
    Ok(found.map(|(place, delivery)| (place as u64, delivery)))
}
