//! Dividing a picture into basic images (004, 5.3), and which row a stream line carries.

use crate::format::Format;
use crate::span::shape;
use crate::words::is_active;
use crate::{refuse_unless, Answer};

/// Where a sample of the picture goes.
#[derive(Clone, Copy, Debug, PartialEq, Eq)]
pub struct Place {
    pub image: u32,
    pub line: u32,
    pub stream_line: u32,
    pub sample: u32,
}

/// 004, 5.3: odd lines go to images 1 and 2, even ones to 3 and 4; of each line the even samples go to the first of the two. Line l of a
/// basic image travels on stream line l + 41 (004, 6.1).
pub fn place(line: u32, sample: u32) -> Answer<Place> {
    refuse_unless((1..=2160).contains(&line) && sample <= 3839, 2)?;
    let image = match (line % 2, sample % 2) {
        (1, 0) => 1,
        (1, _) => 2,
        (_, 0) => 3,
        (_, _) => 4,
    };
    let of_image = line.div_ceil(2);
    Ok(Place { image, line: of_image, stream_line: of_image + 41, sample: sample / 2 })
}

/// The basic image and the line of the picture that come on a stream line of a link: at 120 and 100 Hz the two links of a component have two
/// streams each, at 50 Hz the one has four (01, "Dividing a picture"). Tried by the place of every line.
pub fn way_back(format: Format, link: u32, stream: u32, stream_line: u32) -> Answer<(u32, u32)> {
    let carried: &[&[u32]] = if shape(format)?.streams == 2 { &[&[1, 2], &[3, 4]] } else { &[&[1, 2, 3, 4]] };
    let link = carried.get(link.wrapping_sub(1) as usize).ok_or((2, 0))?;
    let image = *link.get(stream.wrapping_sub(1) as usize).ok_or((2, 0))?;
    let goes_there = |line: &u32| (0..2).any(|sample| place(*line, sample).is_ok_and(|p| (p.image, p.stream_line) == (image, stream_line)));
    (1..=2160).find(goes_there).map(|line| (image, line)).ok_or((2, 0))
}

/// The even samples of a row, and the odd ones. `rooms` are the lengths of the caller's outputs.
pub fn split(row: &[u16], rooms: [usize; 2]) -> Answer<[Vec<u16>; 2]> {
    refuse_unless(row.len() == 3840, 3)?;
    refuse_unless(rooms == [1920, 1920], 4)?;
    Ok([0, 1].map(|w| (0..1920).map(|j| row[2 * j + w]).collect()))
}

pub fn join(first: &[u16], second: &[u16], room: usize) -> Answer<Vec<u16>> {
    refuse_unless(first.len() == 1920 && second.len() == 1920, 3)?;
    refuse_unless(room == 3840, 4)?;
    Ok((0..1920).flat_map(|j| [first[j], second[j]]).collect())
}

/// 01, "Sending": the picture for lines 42 to 1121, blanking for any other number.
pub fn carries_picture(line: u32) -> bool {
    is_active(line)
}
