//! The structs of the header, field for field. The header says what each field means, and what stands in one without meaning.

use crate::given::{PictureLine, StreamLine};
use crate::refusal::Refusal;
use crate::NO_BIT;

macro_rules! structs {
    ($($(#[$of:meta])* $name:ident { $($field:ident: $kind:ty),* })*) => {$(
        $(#[$of])*
        #[repr(C)]
        #[derive(Clone, Copy, Debug, PartialEq, Eq, Default)]
        pub struct $name {
            $(pub $field: $kind,)*
        }
    )*};
}

structs! {
    /// The content bytes of a span: 1 and 2 of the SAV, then of the EAV.
    Content { sav1: u8, sav2: u8, eav1: u8, eav2: u8 }
    /// What a span says about itself.
    Delivery {
        line: StreamLine, content: Content, positive_before: bool, positive_after: bool, repairs: u32, repairs_of_bit: [u32; 12]
    }
    /// The lengths of a span: samples of all streams, and symbols. Refusal 1.
    #[must_use]
    LengthsAnswer { number: u32, samples: usize, symbols: usize }
    /// Refusals 1, 2, 3, 4 and 6.
    #[must_use]
    SendAnswer { number: u32, positive_after: bool, place: u64 }
    /// Refusals 1, 3, 4 and 20 to 26.
    #[must_use]
    ReadAnswer { number: u32, place: u64, delivery: Delivery }
    /// Refusals 1, 3 and 5.
    #[must_use]
    FindAnswer { number: u32, found: bool, place: u64 }
    /// Refusals 1, 3, 4 and 5.
    #[must_use]
    NextAnswer { number: u32, found: bool, place: u64, resume: u64, delivery: Delivery }
    /// Refusal 2.
    #[must_use]
    PlaceAnswer { number: u32, image: u32, image_line: u32, stream_line: StreamLine, sample: u32 }
    /// Refusals 1 and 2.
    #[must_use]
    WayBackAnswer { number: u32, image: u32, line: PictureLine }
    /// Refusal 2.
    #[must_use]
    LineWordsAnswer { number: u32, ln0: u32, ln1: u32 }
    /// Refusals 7 and 22.
    #[must_use]
    ReadLineWordsAnswer { number: u32, line: StreamLine }
    /// Refusal 7. Bit i of `crc` is CRCCi.
    #[must_use]
    CrccAnswer { number: u32, crc: u32, crcc0: u32, crcc1: u32 }
    /// Refusals 7 and 20.
    #[must_use]
    DecodeAnswer { number: u32, character: u32, positive_after: bool }
    /// Refuses nothing; `known` is false for a number that is not a character.
    #[must_use]
    EncodeAnswer { known: bool, symbol: u32, positive_after: bool }
}

/// Refusals 7 and 8. It has no `Default`: that would say of bit 0 that it was wrong.
#[repr(C)]
#[derive(Clone, Copy, Debug, PartialEq, Eq)]
#[must_use]
pub struct RepairAnswer {
    pub number: u32,
    pub word: u32,
    pub distance: u32,
    /// `NO_BIT` where none was wrong, and in a refusal.
    pub bit: u32,
}

impl LengthsAnswer {
    /// The samples and the symbols of a span.
    pub fn result(self) -> Result<(usize, usize), Refusal> {
        Refusal::check(self.number, 0).map(|()| (self.samples, self.symbols))
    }
}

impl SendAnswer {
    /// The running disparity after the span.
    pub fn result(self) -> Result<bool, Refusal> {
        Refusal::check(self.number, self.place).map(|()| self.positive_after)
    }
}

impl ReadAnswer {
    pub fn result(self) -> Result<Delivery, Refusal> {
        Refusal::check(self.number, self.place).map(|()| self.delivery)
    }
}

impl FindAnswer {
    /// The first symbol of the span, if one was found.
    pub fn result(self) -> Result<Option<u64>, Refusal> {
        Refusal::check(self.number, 0).map(|()| self.found.then_some(self.place))
    }
}

impl NextAnswer {
    /// The first symbol of the span and what it says, if one was delivered.
    pub fn result(self) -> Result<Option<(u64, Delivery)>, Refusal> {
        Refusal::check(self.number, 0).map(|()| self.found.then_some((self.place, self.delivery)))
    }
}

impl PlaceAnswer {
    pub fn result(self) -> Result<PlaceAnswer, Refusal> {
        Refusal::check(self.number, 0).map(|()| self)
    }
}

impl WayBackAnswer {
    /// The basic image, and the line of the picture.
    pub fn result(self) -> Result<(u32, PictureLine), Refusal> {
        Refusal::check(self.number, 0).map(|()| (self.image, self.line))
    }
}

impl LineWordsAnswer {
    /// LN0 and LN1.
    pub fn result(self) -> Result<(u32, u32), Refusal> {
        Refusal::check(self.number, 0).map(|()| (self.ln0, self.ln1))
    }
}

impl ReadLineWordsAnswer {
    /// The stream line.
    pub fn result(self) -> Result<StreamLine, Refusal> {
        Refusal::check(self.number, 0).map(|()| self.line)
    }
}

impl RepairAnswer {
    /// The legal timing word, in how many bits the given one differs, and in which; none where nothing was wrong.
    pub fn result(self) -> Result<(u32, u32, Option<u32>), Refusal> {
        let bit = (self.bit != NO_BIT).then_some(self.bit);
        Refusal::check(self.number, 0).map(|()| (self.word, self.distance, bit))
    }
}

impl CrccAnswer {
    pub fn result(self) -> Result<CrccAnswer, Refusal> {
        Refusal::check(self.number, 0).map(|()| self)
    }
}

impl DecodeAnswer {
    /// The character, and the running disparity after it.
    pub fn result(self) -> Result<(u32, bool), Refusal> {
        Refusal::check(self.number, 0).map(|()| (self.character, self.positive_after))
    }
}

impl EncodeAnswer {
    /// The symbol and the running disparity after it; none for a number that is not a character.
    pub fn result(self) -> Option<(u32, bool)> {
        self.known.then_some((self.symbol, self.positive_after))
    }
}
