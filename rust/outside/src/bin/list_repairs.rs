//! What the program that lists repairs must print, computed from document 01 and tables 6 and 7 of 004, and compared with what the
//! program given as the argument prints, for input whole and in small pieces.

use outside::printed::{printed, said_when_full};
use plain::words::{repair, xyz};
use std::process::Command;

/// The most bytes that are read of an input.
const MOST: usize = 65_536;

/// Values to hold against it, and what is printed for them: neither was computed here.
const VALUES: [u8; 10] = [0x01, 0x08, 0xD0, 0x08, 0x00, 0x00, 0x00, 0x08, 0x03, 0x08];
const PRINTED: &str = "0 0801 0800 1 0\n1 08d0 09d0 1 8\n2 0000 0800 1 11\n3 0800 0800 0 -\n4 0803 refused\n";

/// Of each word its index, itself, the legal word, the distance, and the wrong bit if there is one.
fn listing(input: &[u8]) -> String {
    let mut text = String::new();
    for (index, pair) in input[..input.len().min(MOST)].chunks_exact(2).enumerate() {
        let word = u16::from_le_bytes([pair[0], pair[1]]);
        text += &match repair(word.into()) {
            Ok(near) => {
                let bit = near.bit.map_or("-".to_string(), |bit| bit.to_string());
                format!("{index} {word:04x} {:04x} {} {bit}\n", near.word, near.distance)
            }
            Err(_) => format!("{index} {word:04x} refused\n"),
        };
    }
    text
}

fn main() {
    let program = std::env::args().nth(1).expect("a program to compare");
    assert_eq!(listing(&VALUES), PRINTED);
    let all: Vec<u8> = (0..=65535u16).flat_map(u16::to_le_bytes).collect();
    let (low, high) = all.split_at(MOST);
    let legal = [xyz(false, false), xyz(false, true), xyz(true, false), xyz(true, true)];
    let near: Vec<u8> = legal.iter().flat_map(|word| (0..16).map(move |bit| word ^ 1 << bit)).flat_map(u16::to_le_bytes).collect();
    let inputs: [(&str, &[u8]); 14] = [
        ("nothing", &[]),
        ("one byte", &[1]),
        ("the paper's example", &[1, 8, 3, 8]),
        ("values to hold against it", &VALUES),
        ("an odd last byte", &[1, 8, 3, 8, 0]),
        ("every word below 8000, which are 64 KiB", low),
        ("every word from 8000 on", high),
        ("a word short of 64 KiB", &low[..MOST - 2]),
        ("a byte short of 64 KiB", &low[..MOST - 1]),
        ("a byte past 64 KiB", &all[..MOST + 1]),
        ("a word past 64 KiB", &all[..MOST + 2]),
        ("past 64 KiB", &all),
        ("64 KiB of words with the longest lines", &[0; MOST]),
        ("legal words with each bit inverted", &near),
    ];
    for (name, input) in inputs {
        for piece in [1, 3, 4096, 1 << 20] {
            assert_eq!(printed(&program, input, piece), listing(input), "{name}, in pieces of {piece}");
        }
    }
    assert_eq!(said_when_full(Command::new(&program), &[1, 8, 3, 8]), "the listing: No space left on device (os error 28)\n");
    println!("the program lists {} inputs as document 01 says, whole and in pieces", inputs.len());
}
