//! Writes what the crate code_vectors must write, byte for byte: the code by its published equations. Its stored stdout was made by this
//! program.

use plain::code::{decode, encode};
use plain::published;
use std::fmt::Write;

fn sign(positive: bool) -> char {
    match positive {
        true => '+',
        false => '-',
    }
}

/// Every character at both disparities: its symbol, and the disparity after.
fn write_characters(text: &mut String, names: &[String]) {
    for (name, character) in names.iter().zip(0..) {
        for positive in [false, true] {
            let (symbol, after) = encode(positive, character).expect("a character");
            writeln!(text, "{name} {} {symbol:03x} {}", sign(positive), sign(after)).unwrap();
        }
    }
}

/// What a symbol is at negative and at positive disparity, with the disparity after, or why not; what it means; where it is legal.
fn write_symbol(text: &mut String, names: &[String], symbol: u32) {
    let (mut decoded, mut meaning, mut legal) = (Vec::new(), None, String::new());
    for positive in [false, true] {
        match decode(positive, symbol) {
            Ok((character, after)) => {
                let name = &names[character as usize];
                assert!(meaning.is_none_or(|other| other == name), "{symbol:03x} has two meanings");
                meaning = Some(name);
                decoded.push(format!("{name}{}", sign(after)));
                legal.push(sign(positive));
            }
            Err((number, _)) => decoded.push(number.to_string()),
        }
    }
    // A number that is not a symbol has its refusal as meaning.
    let meaning = match meaning {
        Some(name) => name,
        None if symbol > 1023 => &decoded[0],
        None => "none",
    };
    writeln!(text, "{}", format!("{symbol:03x} {} {meaning} {legal}", decoded.join(" ")).trim_end()).unwrap();
}

fn main() {
    let names: Vec<String> = published::characters().into_iter().map(|(name, ..)| name).collect();
    let mut text = String::new();
    write_characters(&mut text, &names);
    // All symbols, and the two numbers next to and farthest from them.
    (0..1024).chain([0x400, 0xFFFF]).for_each(|symbol| write_symbol(&mut text, &names, symbol));
    print!("{text}");
}
