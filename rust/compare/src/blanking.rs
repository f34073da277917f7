//! Blanking lines (004, 6.8): the row, what may be sent of it, and what comes back, of every component in every format at every depth.

use crate::calls;
use crate::report::{in_two, Report};
use crate::spans::{any_asked, every_second, shape_of, COMPONENTS};
use plain::format::Format;
use random::Random;

/// Lines next to the picture and to the end of the frame, and between.
const LINES: [u32; 8] = [1, 2, 10, 40, 41, 1122, 1123, 1125];

/// What is blanking for no component: next to it, shifted by two to either side, or with a bit above the twelve.
const WRONG: [u16; 14] = [0, 16, 0x040, 0x0FF, 0x101, 0x200, 0x400, 0x7FF, 0x801, 0x900, 0xFFF, 0x1100, 0x1800, 0x2000];

pub fn run() -> Report {
    let mut r = in_two(rows);
    r.add(in_two(sent));
    r.add(in_two(refused));
    r
}

/// The word of a component and that of the others, in the paper's numerals: not those of plain.
fn words(format: Format) -> (u16, u16) {
    match format.component {
        1..=4 => (0x100, 0x800),
        _ => (0x800, 0x100),
    }
}

/// The row is the component's word, as often as there are samples.
fn rows(part: usize, r: &mut Report) {
    for format in every_second(part) {
        let mut row = vec![0; shape_of(format).samples()];
        calls::fill_blanking(r, format, row.len());
        let filled = brazulint::fill_blanking(calls::given(format), &mut row);
        r.holds(|| format!("{format:?}: another row is filled"), filled.is_ok() && row.iter().all(|&word| word == words(format).0));
    }
}

/// The row is sent, and is delivered again as it was given; read as any component.
fn sent(part: usize, r: &mut Report) {
    let mut random = Random(0x606 + part as u64);
    for (format, line) in every_second(part).flat_map(|format| LINES.map(|line| (format, line))) {
        let (shape, positive) = (shape_of(format), random.flip());
        let samples = vec![words(format).0; shape.samples()];
        let sent = calls::send(r, any_asked(&mut random, format, line, positive), &samples, shape.symbols());
        let Ok((symbols, _)) = sent else {
            r.holds(|| format!("{format:?}: the blanking of line {line} is refused"), false);
            continue;
        };
        for component in COMPONENTS {
            let read = calls::read(r, format.carrying(component), &symbols, samples.len());
            let same = read.is_ok_and(|d| (d.line, &d.rows) == (line, &samples));
            r.holds(|| format!("{format:?}: line {line} is not read as it was sent, as component {component}"), same);
        }
    }
}

/// The row of the other components is refused at its first sample; one wrong sample where it stands, and of two the first.
fn refused(part: usize, r: &mut Report) {
    let mut random = Random(0x707 + part as u64);
    for (format, line) in every_second(part).flat_map(|format| LINES.map(|line| (format, line))) {
        let ((own, other), count) = (words(format), shape_of(format).samples());
        refused_at(r, &mut random, format, line, &vec![other; count], 0);
        for wrong in WRONG.into_iter().chain([other]) {
            let middle = 1 + random.below(count - 2);
            for (first, second) in [(0, middle), (middle, middle), (middle, count - 1), (count - 1, count - 1)] {
                let mut samples = vec![own; count];
                (samples[first], samples[second]) = (wrong, wrong);
                refused_at(r, &mut random, format, line, &samples, first);
            }
        }
    }
}

/// What is lent stays as it was, which the call compares.
fn refused_at(r: &mut Report, random: &mut Random, format: Format, line: u32, samples: &[u16], place: usize) {
    let positive = random.flip();
    let sent = calls::send(r, any_asked(random, format, line, positive), samples, shape_of(format).symbols());
    r.holds(|| format!("{format:?}, line {line}: not refused with 6 at {place}"), sent == Err((6, place as u64)));
}
