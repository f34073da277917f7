//! The test picture (docs/DECISIONS.md, "The test picture"): rings around a place left of and above the middle, and what a link of the first images carries of it.

use crate::format::Format;
use crate::picture::place;
use crate::span::{shape, ROW};
use crate::words::{blanking, is_active};

/// The twelve-bit code of a sample of a picture line.
pub fn code(line: u32, sample: u32) -> u16 {
    let (down, right) = (i64::from(line) - 720, i64::from(sample) - 1280);
    4079 - ((down.pow(2) + right.pow(2)) / 512 % 4064) as u16
}

/// The samples of a stream line, stream by stream. Each sample of the two picture lines that it carries goes where the division puts it;
/// images that the link does not carry are left out.
pub fn samples(format: Format, line: u32) -> Vec<u16> {
    let shape = shape(format).expect("a known format");
    let mut rows = vec![blanking(format); shape.samples()];
    if is_active(line) {
        for picture_line in [2 * (line - 41) - 1, 2 * (line - 41)] {
            for sample in 0..3840 {
                let at = place(picture_line, sample).expect("a sample of the picture");
                assert_eq!(at.stream_line, line);
                let code = code(picture_line, sample);
                let stream = at.image as usize - 1;
                if stream < shape.streams {
                    rows[ROW * stream + at.sample as usize] = if format.depth == 10 { code >> 2 } else { code };
                }
            }
        }
    }
    rows
}
