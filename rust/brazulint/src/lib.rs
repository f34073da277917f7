//! A safe wrapper over `libbrazulint.a`, the link code of a 10G video link (ITU-R BT.2077 Part 2, GY/T 347.2-2021). The calls are those of
//! `include/brazulint.h`, on slices; the header says what each one answers and refuses.
//!
//! A line is sent, and the spans of the recording are delivered:
//!
//! ```
//! use brazulint::{Format, Request, StreamLine};
//!
//! fn main() -> Result<(), brazulint::Refusal> {
//!     let format = Format::plain(Format::HZ_120, 12).carrying(Format::R);
//!     let (samples, symbols) = brazulint::lengths(format).result()?;
//!     let picture = vec![1024; samples];
//!     let mut recording = vec![0; symbols];
//!     brazulint::send(format, Request::new(StreamLine(42), false), &picture, &mut recording).result()?;
//!
//!     let spans = brazulint::spans(format, &recording).collect::<Result<Vec<_>, _>>()?;
//!     assert_eq!(spans.len(), 1);
//!     assert_eq!((spans[0].place, spans[0].delivery.line), (0, StreamLine(42)));
//!     assert_eq!(spans[0].rows, picture);
//!     Ok(())
//! }
//! ```

mod answers;
mod given;
mod live;
pub mod raw;
mod refusal;
mod spans;

pub use answers::*;
pub use given::*;
pub use live::Live;
pub use refusal::Refusal;
pub use spans::{spans, Span, Spans};

/// The version of the library that this wrapper belongs to: 65536 times the interface, and the release in it.
pub const VERSION: u32 = 4 * 65536;

/// The samples and the symbols of a span of the largest format, and the symbols of the longest recording.
pub const MOST_SAMPLES: usize = 7680;
pub const MOST_SYMBOLS: usize = 19_008;
pub const LIMIT: usize = 2_097_152;

/// In the place of a bit of a timing word: none was wrong.
pub const NO_BIT: u32 = 12;

/// The special characters by number; a byte is its own number.
pub const K28_0: u32 = 256;
pub const K28_1: u32 = 257;
pub const K28_2: u32 = 258;
pub const K28_3: u32 = 259;
pub const K28_4: u32 = 260;
pub const K28_5: u32 = 261;
pub const K28_6: u32 = 262;
pub const K28_7: u32 = 263;
pub const K23_7: u32 = 264;
pub const K27_7: u32 = 265;
pub const K29_7: u32 = 266;
pub const K30_7: u32 = 267;

/// A call of the header.
///
/// SAFETY: every pointer given below is that of a slice, followed by the slice's own length, and the slice is borrowed until the call has
/// ended. What is written is borrowed as `&mut`, so it overlaps nothing else. The library takes all numbers and all contents.
macro_rules! call {
    ($name:ident($($argument:expr),*)) => {
        unsafe { raw::$name($($argument),*) }
    };
}

/// The version of the library that is linked.
#[must_use]
pub fn version() -> u32 {
    call!(brazulint4_version())
}

/// How many samples a span of a format takes, and how many symbols it has.
pub fn lengths(format: Format) -> LengthsAnswer {
    call!(brazulint4_lengths(format))
}

/// Sends the span of a stream line into `symbols`.
pub fn send(format: Format, request: Request, samples: &[u16], symbols: &mut [u16]) -> SendAnswer {
    let (from, to) = (samples.as_ptr(), symbols.as_mut_ptr());
    call!(brazulint4_send(format, request, from, samples.len(), to, symbols.len()))
}

/// Whether a stream line carries the picture; false for blanking.
#[must_use]
pub fn carries_picture(line: StreamLine) -> bool {
    call!(brazulint4_carries_picture(line))
}

/// Fills a row with the blanking samples of all streams, which are those of the format's component. Refusals 1 and 4.
///
/// ```
/// use brazulint::{fill_blanking, Format};
///
/// let (luma, mut row) = (Format::plain(Format::HZ_50, 10).carrying(Format::Y), [0; 7680]);
/// assert!(fill_blanking(luma, &mut row) == Ok(()) && row == [0x100; 7680]);
/// assert!(fill_blanking(luma.carrying(Format::CB), &mut row) == Ok(()) && row == [0x800; 7680]);
/// ```
pub fn fill_blanking(format: Format, row: &mut [u16]) -> Result<(), Refusal> {
    Refusal::check(call!(brazulint4_fill_blanking(format, row.as_mut_ptr(), row.len())), 0)
}

/// Reads exactly one span into `rows`.
pub fn read(format: Format, symbols: &[u16], rows: &mut [u16]) -> ReadAnswer {
    call!(brazulint4_read(format, symbols.as_ptr(), symbols.len(), rows.as_mut_ptr(), rows.len()))
}

/// Answers what reading would.
pub fn judge(format: Format, symbols: &[u16]) -> ReadAnswer {
    call!(brazulint4_judge(format, symbols.as_ptr(), symbols.len()))
}

/// The first place at or after `start` at which a span would be read.
pub fn find(format: Format, symbols: &[u16], start: u64) -> FindAnswer {
    call!(brazulint4_find(format, symbols.as_ptr(), symbols.len(), start))
}

/// Finds a span and reads it into `rows` at once; continue from `resume`. Where there is none, nothing before `resume` can begin a span,
/// whatever arrives later (`Live` goes by it). After "none", as after a refusal, the rows are old: they stay as
/// they were, so what an earlier call left there is still there and looks like a good row. Look at `found` before you look at the rows.
/// `spans` has rows of its own for each span.
pub fn next(format: Format, symbols: &[u16], start: u64, rows: &mut [u16]) -> NextAnswer {
    call!(brazulint4_next(format, symbols.as_ptr(), symbols.len(), start, rows.as_mut_ptr(), rows.len()))
}

/// Divides a row of 3840 samples into two of 1920. Refusals 3 and 4.
pub fn split(row: &[u16], first: &mut [u16], second: &mut [u16]) -> Result<(), Refusal> {
    let (one, two) = (first.as_mut_ptr(), second.as_mut_ptr());
    Refusal::check(call!(brazulint4_split(row.as_ptr(), row.len(), one, first.len(), two, second.len())), 0)
}

/// Joins them again. Refusals 3 and 4.
pub fn join(first: &[u16], second: &[u16], row: &mut [u16]) -> Result<(), Refusal> {
    let (one, two) = (first.as_ptr(), second.as_ptr());
    Refusal::check(call!(brazulint4_join(one, first.len(), two, second.len(), row.as_mut_ptr(), row.len())), 0)
}

/// Where a sample of a picture line goes.
pub fn place(line: PictureLine, sample: u32) -> PlaceAnswer {
    call!(brazulint4_place(line, sample))
}

/// The way back: the line of the picture that a stream line brings, and its basic image. `link` is one of the links of its component, `stream`
/// one of the link's streams, both from 1.
pub fn way_back(format: Format, link: u32, stream: u32, line: StreamLine) -> WayBackAnswer {
    call!(brazulint4_way_back(format, link, stream, line))
}

/// The two words of a stream line's number.
pub fn line_words(line: StreamLine) -> LineWordsAnswer {
    call!(brazulint4_line_words(line))
}

/// The stream line for which exactly these two words are sent.
pub fn read_line_words(ln0: u32, ln1: u32) -> ReadLineWordsAnswer {
    call!(brazulint4_read_line_words(ln0, ln1))
}

/// The legal timing word that is at most one bit from a given one.
///
/// ```
/// assert_eq!(brazulint::repair(0x801).result(), Ok((0x800, 1, Some(0))));
/// assert_eq!(brazulint::repair(0x800).result(), Ok((0x800, 0, None)));
/// assert_eq!(brazulint::repair(0x803).result(), Err(brazulint::Refusal::BeyondRepair));
/// ```
pub fn repair(word: u32) -> RepairAnswer {
    call!(brazulint4_repair(word))
}

/// The CRCC of a run of words of one stream.
pub fn crcc(words: &[u16]) -> CrccAnswer {
    call!(brazulint4_crcc(words.as_ptr(), words.len()))
}

/// The character that has a symbol at the running disparity before it.
pub fn decode(positive: bool, symbol: u32) -> DecodeAnswer {
    call!(brazulint4_decode(positive, symbol))
}

/// The symbol of a character at the running disparity before it.
pub fn encode(positive: bool, character: u32) -> EncodeAnswer {
    call!(brazulint4_encode(positive, character))
}
