//! What the library must answer, field for field, given what plain answers. The header says what stands in a field without meaning.

use brazulint::*;
use plain::picture::Place;
use plain::read::Delivered;
use plain::words::{Crcc, Repaired};
use plain::Answer;

/// The number of an answer that is only a number.
pub fn number<T>(plain: &Answer<T>) -> u32 {
    plain.as_ref().err().map_or(0, |refused| refused.0)
}

pub fn lengths(plain: Answer<[usize; 2]>) -> LengthsAnswer {
    match plain {
        Ok([samples, symbols]) => LengthsAnswer { number: 0, samples, symbols },
        Err((number, _)) => LengthsAnswer { number, ..Default::default() },
    }
}

pub fn send(plain: &Answer<(Vec<u16>, bool)>) -> SendAnswer {
    match plain {
        Ok((_, after)) => SendAnswer { positive_after: *after, ..Default::default() },
        Err((number, place)) => SendAnswer { number: *number, place: *place, positive_after: false },
    }
}

pub fn delivery(d: &Delivered) -> Delivery {
    let [sav1, sav2, eav1, eav2] = d.content;
    let content = Content { sav1, sav2, eav1, eav2 };
    let Delivered { positive_before, positive_after, repairs, repairs_of_bit, .. } = *d;
    Delivery { line: StreamLine(d.line), content, positive_before, positive_after, repairs, repairs_of_bit }
}

pub fn read(plain: &Answer<Delivered>) -> ReadAnswer {
    match plain {
        Ok(delivered) => ReadAnswer { delivery: delivery(delivered), ..Default::default() },
        Err((number, place)) => ReadAnswer { number: *number, place: *place, ..Default::default() },
    }
}

pub fn find(plain: Answer<Option<u64>>) -> FindAnswer {
    match plain {
        Ok(Some(place)) => FindAnswer { number: 0, found: true, place },
        Ok(None) => FindAnswer::default(),
        Err((number, _)) => FindAnswer { number, ..Default::default() },
    }
}

/// `symbols` is the length of a span, `all` that of the recording. If there is none, the place to continue from is the first of which the
/// window is not whole, but not before the start; after a refusal it is the start.
pub fn next(plain: &Answer<Option<(u64, Delivered)>>, start: u64, symbols: u64, all: u64) -> NextAnswer {
    match plain {
        Ok(Some((place, d))) => NextAnswer { number: 0, found: true, place: *place, resume: *place + symbols, delivery: delivery(d) },
        Ok(None) => NextAnswer { resume: start.max((all + 1).saturating_sub(symbols)), ..Default::default() },
        Err((number, _)) => NextAnswer { number: *number, resume: start, ..Default::default() },
    }
}

pub fn place(plain: Answer<Place>) -> PlaceAnswer {
    match plain {
        Ok(p) => PlaceAnswer { number: 0, image: p.image, image_line: p.line, stream_line: StreamLine(p.stream_line), sample: p.sample },
        Err((number, _)) => PlaceAnswer { number, ..Default::default() },
    }
}

pub fn way_back(plain: Answer<(u32, u32)>) -> WayBackAnswer {
    match plain {
        Ok((image, line)) => WayBackAnswer { number: 0, image, line: PictureLine(line) },
        Err((number, _)) => WayBackAnswer { number, ..Default::default() },
    }
}

pub fn line_words(plain: Answer<[u16; 2]>) -> LineWordsAnswer {
    match plain {
        Ok([ln0, ln1]) => LineWordsAnswer { number: 0, ln0: ln0.into(), ln1: ln1.into() },
        Err((number, _)) => LineWordsAnswer { number, ..Default::default() },
    }
}

pub fn read_line_words(plain: Answer<u32>) -> ReadLineWordsAnswer {
    match plain {
        Ok(line) => ReadLineWordsAnswer { number: 0, line: StreamLine(line) },
        Err((number, _)) => ReadLineWordsAnswer { number, ..Default::default() },
    }
}

pub fn repair(plain: Answer<Repaired>) -> RepairAnswer {
    match plain {
        Ok(r) => RepairAnswer { number: 0, word: r.word.into(), distance: r.distance, bit: r.bit.unwrap_or(NO_BIT) },
        Err((number, _)) => RepairAnswer { number, word: 0, distance: 0, bit: NO_BIT },
    }
}

/// Bit i of the register is CRCCi.
pub fn crcc(plain: Answer<Crcc>) -> CrccAnswer {
    match plain {
        Ok(crcc) => {
            let crc = crcc.bits.iter().enumerate().map(|(i, &bit)| (bit as u32) << i).sum();
            CrccAnswer { number: 0, crc, crcc0: crcc.words[0].into(), crcc1: crcc.words[1].into() }
        }
        Err((number, _)) => CrccAnswer { number, ..Default::default() },
    }
}

pub fn decode(plain: Answer<(u16, bool)>) -> DecodeAnswer {
    match plain {
        Ok((character, positive_after)) => DecodeAnswer { number: 0, character: character.into(), positive_after },
        Err((number, _)) => DecodeAnswer { number, ..Default::default() },
    }
}

pub fn encode(plain: Option<(u16, bool)>) -> EncodeAnswer {
    match plain {
        Some((symbol, positive_after)) => EncodeAnswer { known: true, symbol: symbol.into(), positive_after },
        None => EncodeAnswer::default(),
    }
}
