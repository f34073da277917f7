//! Dividing a picture: places, rows, and which row a line carries.

use crate::calls;
use crate::report::{in_two, Report};
use crate::spans::COMPONENTS;
use plain::format::Format;
use random::Random;

const LINES: [u32; 14] = [0, 1, 2, 3, 4, 1079, 1080, 1081, 2158, 2159, 2160, 2161, 65_537, u32::MAX];
const SAMPLES: [u32; 14] = [0, 1, 2, 3, 1918, 1919, 1920, 1921, 3838, 3839, 3840, 3841, 65_536, u32::MAX];
const LENGTHS: [usize; 12] = [0, 1, 2, 959, 960, 1919, 1920, 1921, 3839, 3840, 3841, 7680];

pub fn run() -> Report {
    let mut r = Report::default();
    places(&mut r);
    for line in (0..=1200).chain([2000, 2047, 65_535, 65_536, 65_577, 65_578, 65_536 + 1121, (1 << 24) + 42, (1 << 31) + 42, u32::MAX]) {
        calls::carries_picture(&mut r, line);
    }
    r.add(in_two(ways_back));
    r.add(in_two(rows));
    r
}

/// Every link, stream and stream line that there is, and their neighbours; of every format, also of those that there are not. The components,
/// which it does not depend on, come by turns.
fn ways_back(part: usize, r: &mut Report) {
    let kinds = [(0, 12), (1, 10), (1, 12), (2, 12), (3, 10), (3, 12), (3, 0), (4, 12), (257, 12)];
    for ((number, depth), component) in kinds.into_iter().zip(COMPONENTS.into_iter().cycle()).skip(part).step_by(2) {
        let kind = Format::plain(number, depth).carrying(component);
        for (link, stream) in (0..=3).flat_map(|link| (0..=5).map(move |stream| (link, stream))) {
            for line in (0..=1126).chain([65_536 + 42, u32::MAX]) {
                calls::way_back(r, kind, link, stream, line);
            }
        }
        for far in [255, 256, 257, 65_535, 65_536, 65_537, 1 << 31, u32::MAX] {
            calls::way_back(r, kind, far, 1, 42);
            calls::way_back(r, kind, 1, far, 42);
            calls::way_back(r, kind, 1, 1, far);
        }
    }
}

fn places(r: &mut Report) {
    for line in 0..=2161 {
        SAMPLES.iter().for_each(|&sample| calls::place(r, line, sample));
    }
    for sample in 0..=3841 {
        LINES.iter().for_each(|&line| calls::place(r, line, sample));
    }
    for far in [65_535, 65_536, 65_537, 65_536 + 2160, (1 << 24) + 1, 1 << 31, u32::MAX - 1, u32::MAX] {
        for near in [0, 1, 2160, 3839, far] {
            calls::place(r, far, near);
            calls::place(r, near, far);
        }
    }
}

/// Every combination of three lengths, so each buffer is wrong alone and with the others, and good rows with any contents.
fn rows(part: usize, r: &mut Report) {
    let mut random = Random(0x33 + part as u64);
    for row in LENGTHS.into_iter().skip(part).step_by(2) {
        for first in LENGTHS {
            for second in LENGTHS {
                calls::split(r, &random.numbers(row, 65_536), [first, second]);
                calls::join(r, &random.numbers(first, 65_536), &random.numbers(second, 65_536), row);
            }
        }
    }
    for _ in 0..200 {
        calls::split(r, &random.numbers(3840, 65_536), [1920, 1920]);
        calls::join(r, &random.numbers(1920, 65_536), &random.numbers(1920, 65_536), 3840);
    }
}
