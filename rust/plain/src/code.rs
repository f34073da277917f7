//! The 8B/10B code (ANSI INCITS 230): characters to symbols by the published equations, and symbols back by what these give.

use crate::published;
use crate::{refuse_unless, Answer};
use std::sync::OnceLock;

/// These two among the published characters: a byte is its own number, and the twelve special ones follow.
pub const K28_5: u16 = 261;
pub const K29_7: u16 = 266;

/// Both directions, by disparity: a character's symbol or a symbol's character, with the disparity after it.
struct Code {
    symbols: [Vec<(u16, bool)>; 2],
    characters: [Vec<Option<(u16, bool)>>; 2],
}

fn code() -> &'static Code {
    static CODE: OnceLock<Code> = OnceLock::new();
    CODE.get_or_init(|| {
        let symbols = [false, true].map(symbols_at);
        let characters = [inverse(&symbols[0]), inverse(&symbols[1])];
        Code { symbols, characters }
    })
}

fn symbols_at(positive: bool) -> Vec<(u16, bool)> {
    published::characters().iter().map(|&(_, byte, special)| published::encode(byte, special, positive)).collect()
}

/// For each of the 1,024 symbols the character that has it; no two characters have the same one at the same disparity.
fn inverse(symbols: &[(u16, bool)]) -> Vec<Option<(u16, bool)>> {
    let mut characters = vec![None; 1024];
    for (character, &(symbol, after)) in symbols.iter().enumerate() {
        let before = characters[symbol as usize].replace((character as u16, after));
        assert!(before.is_none(), "symbol {symbol:03x} has two meanings");
    }
    characters
}

/// The symbol of a character, and the disparity after it. None for a number that is not a character.
pub fn encode(positive: bool, character: u32) -> Option<(u16, bool)> {
    code().symbols[positive as usize].get(character as usize).copied()
}

/// The character of a symbol of any value that is legal at this disparity, and the disparity after it.
pub fn meaning(positive: bool, symbol: u16) -> Option<(u16, bool)> {
    code().characters[positive as usize].get(symbol as usize).copied().flatten()
}

/// The single decoder: 7 above 1023, and 20 if the symbol is not legal at this disparity (01, "Refusal numbers").
pub fn decode(positive: bool, symbol: u32) -> Answer<(u16, bool)> {
    refuse_unless(symbol <= 1023, 7)?;
    meaning(positive, symbol as u16).ok_or((20, 0))
}
