//! What the program that lists spans must print, computed from document 01 with the plain reader at every place, and compared with what
//! the program given as the argument prints, for input whole and in small pieces. With the words `make DIR` it writes the stored inputs,
//! and what must be printed for each, into a folder.

mod inputs;

use inputs::{edges, recording, stored, Known};
use outside::printed::{printed, said_when_full};
use plain::format::Format;
use plain::recording::delivery;
use random::Random;
use std::process::Command;

/// The most symbols that are read of an input.
const MOST: usize = 32_767;
const REFUSED: &str = "refused 1\n";

/// Document 01, "Values to hold against it": the place and the line of each span that is delivered.
fn listing(input: &[u8]) -> String {
    let &[format, depth, ref bytes @ ..] = input else {
        return REFUSED.to_string();
    };
    let symbols: Vec<u16> = bytes.chunks_exact(2).take(MOST).map(|b| u16::from_le_bytes([b[0], b[1]])).collect();
    match delivery(Format::plain(format.into(), depth.into()), &symbols) {
        Ok(spans) => spans.iter().map(|(place, span)| format!("{place} {}\n", span.line)).collect(),
        Err(_) => REFUSED.to_string(),
    }
}

fn make(folder: &str) {
    for (name, input, text) in stored() {
        for (end, bytes) in [("in", &input[..]), ("out", text.as_bytes())] {
            std::fs::write(format!("{folder}/{name}.{end}"), bytes).expect("the folder takes files");
        }
    }
}

const PIECES: [usize; 5] = [1, 3, 4096, 65_536, 1 << 20];

/// Answers how many spans are listed.
fn compare(program: &str, name: &str, input: &[u8], pieces: &[usize]) -> usize {
    let text = listing(input);
    for &piece in pieces {
        assert_eq!(printed(program, input, piece), text, "{name}, {} bytes in pieces of {piece}", input.len());
    }
    text.lines().count()
}

fn compare_all(program: &str, known: &[Known]) {
    const SEED: u64 = 3;
    const RECORDINGS: usize = 400;
    for (name, input, _) in known {
        compare(program, name, input, &PIECES);
    }
    let (mut random, mut listed) = (Random(SEED), 0);
    for turn in 0..RECORDINGS {
        let (input, piece) = (recording(&mut random), random.pick(&PIECES));
        listed += compare(program, &format!("recording {turn} of seed {SEED}"), &input, &[piece]);
    }
    assert_eq!(said_when_full(Command::new(program), &[]), "the listing: No space left on device (os error 28)\n");
    println!("the program lists {} inputs as document 01 says, whole and in pieces,", known.len());
    println!("  and {RECORDINGS} recordings of seed {SEED}, with {listed} spans in them");
}

fn main() {
    let arguments: Vec<String> = std::env::args().skip(1).collect();
    let known: Vec<Known> = stored().into_iter().chain(edges()).collect();
    for (name, input, text) in &known {
        assert_eq!(listing(input), *text, "{name}: the reader and what was put in");
    }
    match &arguments[..] {
        [word, folder] if word == "make" => make(folder),
        [program] => compare_all(program, &known),
        _ => panic!("a program to compare, or make and a folder"),
    }
}
