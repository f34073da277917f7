//! The link code of a 10G video link, from document 004 (GY/T 347.2-2021), document 01 (the scope) and document 02 (its changes), and by the
//! readings of docs/DECISIONS.md where these leave room: it shares no table and no line with the library that it is compared with. It is
//! plain before it is fast: every definition goes place by place.

pub mod code;
pub mod format;
pub mod picture;
pub mod published;
pub mod read;
pub mod recording;
pub mod span;
pub mod test_picture;
pub mod words;

/// The number of a refusal and its place, 0 if the papers give it none (01, "Refusal numbers").
pub type Refused = (u32, u64);

/// What a call answers.
pub type Answer<T> = Result<T, Refused>;

/// A refusal without a place, if something does not hold.
pub fn refuse_unless(holds: bool, number: u32) -> Answer<()> {
    match holds {
        true => Ok(()),
        false => Err((number, 0)),
    }
}
