//! Every bit of every symbol of whole sent spans, inverted: each such span is refused. Two of them blank at 800, two at 100.

use crate::calls;
use crate::report::{in_two, Report};
use crate::spans::Draft;
use plain::format::Format;
use random::Random;

pub fn format_1() -> Report {
    let mut r = all_flips(Format::plain(1, 12).carrying(5), 700);
    r.add(all_flips(Format::plain(1, 10).carrying(6), 1124));
    r
}

pub fn format_2() -> Report {
    all_flips(Format::plain(2, 10).carrying(4), 300)
}

pub fn format_3() -> Report {
    all_flips(Format::plain(3, 12), 1121)
}

fn all_flips(format: Format, line: u32) -> Report {
    let draft = Draft::of_line(&mut Random(0xEE + format.number as u64), format, line);
    let (sent, samples) = (draft.symbols(), draft.shape.samples());
    in_two(|part, r| {
        let mut symbols = sent.clone();
        let read = calls::read(r, format, &symbols, samples);
        r.holds(|| format!("line {line}: the span as it was sent is refused"), read.is_ok());
        for at in (part..sent.len()).step_by(2) {
            for bit in 0..10 {
                symbols[at] ^= 1 << bit;
                let read = calls::read(r, format, &symbols, samples);
                r.holds(|| format!("line {line}, symbol {at}: the span passes with bit {bit} inverted"), read.is_err());
                symbols[at] ^= 1 << bit;
            }
        }
    })
}
