//! Each call, made on both sides: the answers are compared in every field, and so is every lent buffer afterwards.

use crate::expected;
use crate::lent::{Left, Lent};
use crate::report::Report;
use brazulint::{Content, PictureLine, Refusal, Request, StreamLine};
use plain::format::Format;
use plain::read::Delivered;
use plain::span::Asked;
use plain::Answer;

/// The wrapper's format, field for field.
pub fn given(format: Format) -> brazulint::Format {
    let mut given = brazulint::Format::plain(format.number, format.depth).carrying(format.component);
    (given.structure, given.size) = (format.structure, format.size);
    given
}

// ---- Single numbers.

pub fn encode(r: &mut Report, positive: bool, character: u32) {
    let plain = expected::encode(plain::code::encode(positive, character));
    r.answer(|| format!("encode({positive}, {character})"), brazulint::encode(positive, character), plain);
}

pub fn decode(r: &mut Report, positive: bool, symbol: u32) {
    let plain = expected::decode(plain::code::decode(positive, symbol));
    r.answer(|| format!("decode({positive}, {symbol:#x})"), brazulint::decode(positive, symbol), plain);
}

pub fn repair(r: &mut Report, word: u32) {
    let plain = expected::repair(plain::words::repair(word));
    r.answer(|| format!("repair({word:#x})"), brazulint::repair(word), plain);
}

pub fn line_words(r: &mut Report, line: u32) {
    let plain = expected::line_words(plain::words::line_words(line));
    r.answer(|| format!("line_words({line})"), brazulint::line_words(StreamLine(line)), plain);
}

pub fn read_line_words(r: &mut Report, ln0: u32, ln1: u32) {
    let plain = expected::read_line_words(plain::words::read_line_words(ln0, ln1));
    r.answer(|| format!("read_line_words({ln0:#x}, {ln1:#x})"), brazulint::read_line_words(ln0, ln1), plain);
}

pub fn crcc(r: &mut Report, words: &[u16]) {
    let plain = expected::crcc(plain::words::crcc(words));
    r.answer(|| format!("crcc({} words)", words.len()), brazulint::crcc(words), plain);
}

pub fn place(r: &mut Report, line: u32, sample: u32) {
    let plain = expected::place(plain::picture::place(line, sample));
    r.answer(|| format!("place({line}, {sample})"), brazulint::place(PictureLine(line), sample), plain);
}

pub fn way_back(r: &mut Report, format: Format, link: u32, stream: u32, line: u32) {
    let plain = expected::way_back(plain::picture::way_back(format, link, stream, line));
    let answer = brazulint::way_back(given(format), link, stream, StreamLine(line));
    r.answer(|| format!("way_back({format:?}, {link}, {stream}, {line})"), answer, plain);
}

pub fn carries_picture(r: &mut Report, line: u32) {
    let plain = plain::picture::carries_picture(line);
    r.answer(|| format!("carries_picture({line})"), brazulint::carries_picture(StreamLine(line)), plain);
}

pub fn lengths(r: &mut Report, format: Format) {
    let plain = expected::lengths(plain::span::lengths(format));
    r.answer(|| format!("lengths({format:?})"), brazulint::lengths(given(format)), plain);
}

// ---- Rows.

/// The number of an answer that is only a number.
fn number(answer: Result<(), Refusal>) -> u32 {
    answer.err().map_or(0, Refusal::number)
}

pub fn split(r: &mut Report, row: &[u16], rooms: [usize; 2]) {
    let [mut first, mut second] = rooms.map(Lent::new);
    let answer = brazulint::split(row, first.lend(), second.lend());
    let plain = plain::picture::split(row, rooms);
    let call = || format!("split({} samples into {rooms:?})", row.len());
    r.answer(call, number(answer), expected::number(&plain));
    let left = |i: usize| plain.as_ref().map_or(Left::AsItWas, |rows| Left::Holds(&rows[i]));
    r.buffer(call, &first, left(0));
    r.buffer(call, &second, left(1));
}

pub fn join(r: &mut Report, first: &[u16], second: &[u16], room: usize) {
    let mut row = Lent::new(room);
    let answer = brazulint::join(first, second, row.lend());
    let plain = plain::picture::join(first, second, room);
    let call = || format!("join({} and {} samples into {room})", first.len(), second.len());
    r.answer(call, number(answer), expected::number(&plain));
    r.buffer(call, &row, plain.as_ref().map_or(Left::AsItWas, |row| Left::Holds(row)));
}

pub fn fill_blanking(r: &mut Report, format: Format, room: usize) {
    let mut row = Lent::new(room);
    let answer = brazulint::fill_blanking(given(format), row.lend());
    let plain = plain::span::blanking_row(format, room);
    let call = || format!("fill_blanking({format:?}, room for {room})");
    r.answer(call, number(answer), expected::number(&plain));
    r.buffer(call, &row, plain.as_ref().map_or(Left::AsItWas, |row| Left::Holds(row)));
}

// ---- Spans.

/// Content bytes that are not named are not looked at, so there are some.
fn unnamed(mut request: Request) -> Request {
    request.content = Content { sav1: 1, sav2: 2, eav1: 3, eav2: 4 };
    request
}

pub fn send(r: &mut Report, asked: Asked, samples: &[u16], room: usize) -> Answer<(Vec<u16>, bool)> {
    let mut symbols = Lent::new(room);
    let Asked { format, line, positive, content } = asked;
    let request = Request::new(StreamLine(line), positive);
    let request = match content {
        None => unnamed(request),
        Some([sav1, sav2, eav1, eav2]) => request.naming(Content { sav1, sav2, eav1, eav2 }),
    };
    let answer = brazulint::send(given(format), request, samples, symbols.lend());
    let plain = plain::span::send(asked, samples, room);
    let call = || format!("send({asked:?}, {} samples, room for {room})", samples.len());
    r.answer(call, answer, expected::send(&plain));
    r.buffer(call, &symbols, plain.as_ref().map_or(Left::AsItWas, |(symbols, _)| Left::Holds(symbols)));
    plain
}

pub fn read(r: &mut Report, format: Format, symbols: &[u16], room: usize) -> Answer<Delivered> {
    let mut rows = Lent::new(room);
    let answer = brazulint::read(given(format), symbols, rows.lend());
    let plain = plain::read::read(format, symbols, room);
    let call = || format!("read({format:?}, {} symbols, room for {room})", symbols.len());
    r.answer(call, answer, expected::read(&plain));
    let left = match &plain {
        Ok(delivered) => Left::Holds(&delivered.rows),
        Err((20.., _)) => Left::Zero,
        Err(_) => Left::AsItWas,
    };
    r.buffer(call, &rows, left);
    plain
}

pub fn judge(r: &mut Report, format: Format, symbols: &[u16]) {
    let plain = expected::read(&plain::read::judge(format, symbols));
    let call = || format!("judge({format:?}, {} symbols)", symbols.len());
    r.answer(call, brazulint::judge(given(format), symbols), plain);
}

// ---- Recordings.

pub fn find(r: &mut Report, format: Format, symbols: &[u16], start: u64) {
    let plain = expected::find(plain::recording::find(format, symbols, start));
    let call = || format!("find({format:?}, {} symbols, from {start})", symbols.len());
    r.answer(call, brazulint::find(given(format), symbols, start), plain);
}

pub fn next(r: &mut Report, format: Format, symbols: &[u16], start: u64, room: usize) {
    let mut rows = Lent::new(room);
    let answer = brazulint::next(given(format), symbols, start, rows.lend());
    let plain = plain::recording::next(format, symbols, start, room);
    let span = plain::span::lengths(format).map_or(0, |lengths| lengths[1] as u64);
    let call = || format!("next({format:?}, {} symbols, from {start}, room for {room})", symbols.len());
    r.answer(call, answer, expected::next(&plain, start, span, symbols.len() as u64));
    let left = match &plain {
        Ok(Some((_, delivered))) => Left::Holds(&delivered.rows),
        _ => Left::AsItWas,
    };
    r.buffer(call, &rows, left);
}

/// All spans of a recording: from the library by steps of next, from plain by finding and reading.
pub fn deliver(r: &mut Report, format: Format, symbols: &[u16]) {
    let plain = plain::recording::delivery(format, symbols).expect("a known format and a short recording");
    let [samples, span] = plain::span::lengths(format).expect("a known format");
    let mut start = 0;
    let rest = plain.into_iter().map(|one| Ok(Some(one))).chain([Ok(None)]);
    for (step, plain) in rest.enumerate() {
        let mut rows = Lent::new(samples);
        let answer = brazulint::next(given(format), symbols, start, rows.lend());
        let call = || format!("step {step} through {} symbols of {format:?}", symbols.len());
        r.answer(call, answer, expected::next(&plain, start, span as u64, symbols.len() as u64));
        let left = match &plain {
            Ok(Some((_, delivered))) => Left::Holds(&delivered.rows),
            _ => Left::AsItWas,
        };
        r.buffer(call, &rows, left);
        start = answer.resume;
    }
}
