//! The calls of the header as they are, under the names that are linked. A buffer is a pointer and the number of its elements; if the number is 0 the pointer may be null. A
//! buffer that is written overlaps no other buffer of the same call.

use crate::answers::*;
use crate::given::*;

extern "C" {
    pub fn brazulint4_version() -> u32;
    pub fn brazulint4_lengths(format: Format) -> LengthsAnswer;
    pub fn brazulint4_send(
        format: Format,
        request: Request,
        samples: *const u16,
        sample_count: usize,
        symbols: *mut u16,
        symbol_room: usize,
    ) -> SendAnswer;
    pub fn brazulint4_carries_picture(line: StreamLine) -> bool;
    pub fn brazulint4_fill_blanking(format: Format, row: *mut u16, row_room: usize) -> u32;
    pub fn brazulint4_read(format: Format, symbols: *const u16, symbol_count: usize, rows: *mut u16, row_room: usize) -> ReadAnswer;
    pub fn brazulint4_judge(format: Format, symbols: *const u16, symbol_count: usize) -> ReadAnswer;
    pub fn brazulint4_find(format: Format, symbols: *const u16, symbol_count: usize, start: u64) -> FindAnswer;
    pub fn brazulint4_next(
        format: Format,
        symbols: *const u16,
        symbol_count: usize,
        start: u64,
        rows: *mut u16,
        row_room: usize,
    ) -> NextAnswer;
    pub fn brazulint4_split(
        row: *const u16,
        row_count: usize,
        first: *mut u16,
        first_room: usize,
        second: *mut u16,
        second_room: usize,
    ) -> u32;
    pub fn brazulint4_join(
        first: *const u16,
        first_count: usize,
        second: *const u16,
        second_count: usize,
        row: *mut u16,
        row_room: usize,
    ) -> u32;
    pub fn brazulint4_place(line: PictureLine, sample: u32) -> PlaceAnswer;
    pub fn brazulint4_way_back(format: Format, link: u32, stream: u32, line: StreamLine) -> WayBackAnswer;
    pub fn brazulint4_line_words(line: StreamLine) -> LineWordsAnswer;
    pub fn brazulint4_read_line_words(ln0: u32, ln1: u32) -> ReadLineWordsAnswer;
    pub fn brazulint4_repair(word: u32) -> RepairAnswer;
    pub fn brazulint4_crcc(words: *const u16, word_count: usize) -> CrccAnswer;
    pub fn brazulint4_decode(positive: bool, symbol: u32) -> DecodeAnswer;
    pub fn brazulint4_encode(positive: bool, character: u32) -> EncodeAnswer;
}
