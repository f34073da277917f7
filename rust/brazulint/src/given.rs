//! What the calls are given, field for field as in the header.

use crate::answers::Content;

/// A format. Any numbers may be given; 0 in any field is refused.
#[repr(C)]
#[derive(Clone, Copy, Debug, PartialEq, Eq, Hash)]
#[non_exhaustive]
pub struct Format {
    /// `Format::HZ_120`, `Format::HZ_100`, `Format::HZ_50`.
    pub number: u32,
    /// 10 or 12 bits.
    pub depth: u32,
    /// The component of the picture that the link carries: `Format::G`, `Format::B`, `Format::R`, `Format::Y`, `Format::CB`, `Format::CR`.
    /// The last two blank at 0x800, the others at 0x100. What is read does not depend on it.
    pub component: u32,
    /// The sampling structure: `Format::SAMPLING_444`.
    pub structure: u32,
    /// The size of the picture: `Format::SIZE_4K`.
    pub size: u32,
}

impl Format {
    pub const HZ_120: u32 = 1;
    pub const HZ_100: u32 = 2;
    pub const HZ_50: u32 = 3;

    pub const G: u32 = 1;
    pub const B: u32 = 2;
    pub const R: u32 = 3;
    pub const Y: u32 = 4;
    pub const CB: u32 = 5;
    pub const CR: u32 = 6;

    pub const SAMPLING_444: u32 = 1;
    pub const SIZE_4K: u32 = 1;

    /// The plain format: the link carries G' of a 4K picture in 4:4:4. For any other component see `carrying`.
    pub const fn plain(number: u32, depth: u32) -> Format {
        Format { number, depth, component: Format::G, structure: Format::SAMPLING_444, size: Format::SIZE_4K }
    }

    /// The same format for a link that carries another component.
    #[must_use]
    pub const fn carrying(self, component: u32) -> Format {
        Format { component, ..self }
    }
}

/// A line of a stream, 1 to 1125; of these 42 to 1121 carry lines of a picture. It is not a line of a picture:
///
/// ```
/// assert!(brazulint::carries_picture(brazulint::StreamLine(42)));
/// ```
///
/// ```compile_fail,E0308
/// assert!(brazulint::carries_picture(brazulint::PictureLine(42)));
/// ```
#[repr(C)]
#[derive(Clone, Copy, Debug, PartialEq, Eq, Hash, PartialOrd, Ord, Default)]
pub struct StreamLine(pub u32);

/// A line of a picture, 1 to 2160.
#[repr(C)]
#[derive(Clone, Copy, Debug, PartialEq, Eq, Hash, PartialOrd, Ord, Default)]
pub struct PictureLine(pub u32);

/// What the sender is asked for.
#[repr(C)]
#[derive(Clone, Copy, Debug, PartialEq, Eq)]
#[non_exhaustive]
pub struct Request {
    pub line: StreamLine,
    /// The running disparity before the span.
    pub positive: bool,
    /// Whether content bytes are named: if not, zeros are sent, and `content` is not looked at.
    pub named: bool,
    pub content: Content,
}

impl Request {
    /// The span of a line, with no content bytes named.
    pub const fn new(line: StreamLine, positive: bool) -> Request {
        Request { line, positive, named: false, content: Content { sav1: 0, sav2: 0, eav1: 0, eav2: 0 } }
    }

    /// The same with these content bytes.
    #[must_use]
    pub const fn naming(self, content: Content) -> Request {
        Request { named: true, content, ..self }
    }
}
