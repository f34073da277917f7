//! The refusals.

use std::error::Error;
use std::fmt;

/// Why a call did not do its work. A place is that of the lowest sample for `NotAllowed`, of a symbol for `WrongSymbol`, and of an
/// interleaved word for those below it; it is 0 where the call takes one symbol or two words.
///
/// ```
/// use brazulint::{Format, PictureLine, Refusal};
///
/// assert_eq!(brazulint::lengths(Format::plain(0, 12)).result(), Err(Refusal::UnknownFormat));
/// let none = brazulint::place(PictureLine(2161), 0).result().unwrap_err();
/// assert_eq!((none.number(), none.place()), (2, None));
/// for number in (1..=8).chain(20..=26) {
///     let refusal = Refusal::check(number, 7).unwrap_err();
///     assert_eq!(refusal.number(), number);
///     assert_eq!(refusal.place(), (number == 6 || number >= 20).then_some(7));
/// }
/// ```
#[derive(Clone, Copy, Debug, PartialEq, Eq, Hash)]
pub enum Refusal {
    UnknownFormat,
    NoLine,
    WrongInput,
    WrongOutput,
    WrongStart,
    NotAllowed(u64),
    TooLarge,
    BeyondRepair,
    WrongSymbol(u64),
    WrongTiming(u64),
    WrongLine(u64),
    WrongV(u64),
    WrongCrcc(u64),
    WrongSample(u64),
    WrongFill(u64),
    /// A number that the header does not have: the library never answers it.
    Unknown(u32),
}

use Refusal::*;

impl Refusal {
    /// The refusal of an answer, unless its number is 0. The place counts only for a refusal that has one.
    pub fn check(number: u32, place: u64) -> Result<(), Refusal> {
        Err(match number {
            0 => return Ok(()),
            1 => UnknownFormat,
            2 => NoLine,
            3 => WrongInput,
            4 => WrongOutput,
            5 => WrongStart,
            6 => NotAllowed(place),
            7 => TooLarge,
            8 => BeyondRepair,
            20 => WrongSymbol(place),
            21 => WrongTiming(place),
            22 => WrongLine(place),
            23 => WrongV(place),
            24 => WrongCrcc(place),
            25 => WrongSample(place),
            26 => WrongFill(place),
            _ => Unknown(number),
        })
    }

    /// Its number in the header.
    #[must_use]
    pub fn number(self) -> u32 {
        self.row().0
    }

    /// What it is, in the header's words.
    #[must_use]
    pub fn words(self) -> &'static str {
        self.row().1
    }

    /// Where, if the refusal has a place.
    #[must_use]
    pub fn place(self) -> Option<u64> {
        match self {
            NotAllowed(place) | WrongSymbol(place) | WrongTiming(place) | WrongLine(place) => Some(place),
            WrongV(place) | WrongCrcc(place) | WrongSample(place) | WrongFill(place) => Some(place),
            _ => None,
        }
    }

    /// The number, the words, and what a place counts.
    fn row(self) -> (u32, &'static str, &'static str) {
        match self {
            UnknownFormat => (1, "unknown format", ""),
            NoLine => (2, "no such line, sample, link or stream", ""),
            WrongInput => (3, "an input of the wrong length, or a recording that is too long", ""),
            WrongOutput => (4, "an output of the wrong length", ""),
            WrongStart => (5, "a start beyond the recording", ""),
            NotAllowed(_) => (6, "a sample that may not be sent", "sample"),
            TooLarge => (7, "a word above 4095, or a symbol above 1023", ""),
            BeyondRepair => (8, "a timing word beyond repair", ""),
            WrongSymbol(_) => (20, "a symbol of the wrong kind, no symbol, or one that is illegal at its disparity", "symbol"),
            WrongTiming(_) => (21, "a timing word is wrong, beyond repair, or of the other H", "word"),
            WrongLine(_) => (22, "the line words of stream 1 name no line, or those of another stream differ", "word"),
            WrongV(_) => (23, "V does not fit the line", "word"),
            WrongCrcc(_) => (24, "a CRCC word is not the one computed", "word"),
            WrongSample(_) => (25, "on an active line a word that no sample has", "word"),
            WrongFill(_) => (26, "a fill word is not 0x100", "word"),
            Unknown(number) => (number, "not a refusal", ""),
        }
    }
}

impl fmt::Display for Refusal {
    fn fmt(&self, f: &mut fmt::Formatter) -> fmt::Result {
        let (number, words, counted) = self.row();
        write!(f, "refusal {number}: {words}")?;
        self.place().map_or(Ok(()), |place| write!(f, " ({counted} {place})"))
    }
}

impl Error for Refusal {}
