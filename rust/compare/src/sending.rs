//! Sending: every line of every format at every depth, and chains of spans with the disparity handed on; of every component.

use crate::calls;
use crate::report::{in_two, Report};
use crate::spans::{any_asked, any_content, any_samples, shape_of, COMPONENTS, KINDS};
use plain::format::Format;
use plain::span::Asked;
use plain::words::is_active;
use random::Random;

pub fn run() -> Report {
    let mut r = in_two(every_line);
    r.add(in_two(chains));
    r
}

/// Blanking lines of each component. Lines of the picture, which are many, of one component after the other.
fn every_line(part: usize, r: &mut Report) {
    let mut random = Random(0x44 + part as u64);
    for kind in KINDS {
        for line in (1..=1125).filter(|line| line % 2 == part as u32) {
            let by_turns = [COMPONENTS[line as usize / 2 % 6]];
            for &component in if is_active(line) { &by_turns[..] } else { &COMPONENTS } {
                one_line(r, &mut random, kind.carrying(component), line);
            }
        }
    }
}

/// With content bytes and without, at both disparities alternately.
fn one_line(r: &mut Report, random: &mut Random, format: Format, line: u32) {
    let (samples, room) = (any_samples(random, format, line), shape_of(format).symbols());
    let (positive, named) = (line & 2 == 0, Some(any_content(random)));
    let _ = calls::send(r, Asked { format, line, positive, content: None }, &samples, room);
    let _ = calls::send(r, Asked { format, line, positive: !positive, content: named }, &samples, room);
}

/// From line 1090 on, past the end of the frame, where line 1 follows 1125, and into the picture. Depth 10 in one half, 12 in the other.
fn chains(part: usize, r: &mut Report) {
    let mut random = Random(0x55 + part as u64);
    for (number, component) in (1..=3).flat_map(|number| COMPONENTS.map(|component| (number, component))) {
        let format = Format::plain(number, [10, 12][part]).carrying(component);
        let (mut line, mut positive) = (1090, false);
        for _ in 0..120 {
            let samples = any_samples(&mut random, format, line);
            let asked = any_asked(&mut random, format, line, positive);
            let sent = calls::send(r, asked, &samples, shape_of(format).symbols());
            positive = sent.is_ok_and(|(_, after)| after);
            line = line % 1125 + 1;
        }
    }
}
