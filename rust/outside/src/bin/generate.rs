//! What the test generator must write, computed with the plain sender, and compared with what the program given as the first argument
//! writes; and what `list_spans`, the second argument, must list of it, known from what was asked for. With the words `make DIR` it writes
//! the stored input and what must be written for it into a folder.

use outside::printed::{both_streams, printed, said_when_full, written};
use plain::format::Format;
use plain::recording::LIMIT;
use plain::span::{send, shape, Asked};
use plain::test_picture::samples;
use plain::words::line_after;
use plain::{refuse_unless, Answer};
use std::process::Command;

/// Six bytes: format, depth, first line, number of spans.
fn input(format: u8, depth: u8, line: u16, count: u16) -> Vec<u8> {
    [&[format, depth], &line.to_le_bytes()[..], &count.to_le_bytes()[..]].concat()
}

/// Two bytes, low byte first, if both are there.
fn number(input: &[u8], place: usize) -> Option<u32> {
    input.get(place..place + 2).map(|b| u16::from_le_bytes([b[0], b[1]]).into())
}

/// The lines of `count` spans: 1 follows 1125.
fn lines(first: u32, count: u32) -> Vec<u32> {
    std::iter::successors(Some(first), |line| Some(line_after(*line))).take(count as usize).collect()
}

/// The recording that six bytes ask for, with its two bytes of header.
fn recording(input: &[u8]) -> Answer<Vec<u8>> {
    let byte = |place: usize| input.get(place).map_or(0, |b| u32::from(*b));
    let format = Format::plain(byte(0), byte(1));
    let shape = shape(format)?;
    let first = number(input, 2).unwrap_or(0);
    refuse_unless((1..=1125).contains(&first), 2)?;
    let count = number(input, 4).ok_or((3, 0))?;
    refuse_unless(count as usize * shape.symbols() <= LIMIT, 3)?;
    let (mut bytes, mut positive) = (input[..2].to_vec(), false);
    for line in lines(first, count) {
        let asked = Asked { format, line, positive, content: None };
        let (symbols, after) = send(asked, &samples(format, line), shape.symbols())?;
        bytes.extend(symbols.iter().flat_map(|symbol| symbol.to_le_bytes()));
        positive = after;
    }
    Ok(bytes)
}

/// What is listed of a recording that was asked for: the spans that are whole in the first 32,767 symbols.
fn listing(input: &[u8]) -> String {
    let format = Format::plain(input[0].into(), input[1].into());
    let span = shape(format).expect("a known format").symbols();
    let lines = lines(number(input, 2).unwrap(), number(input, 4).unwrap());
    let whole = lines.iter().enumerate().take_while(|(k, _)| (k + 1) * span <= 32_767);
    whole.map(|(k, line)| format!("{} {line}\n", k * span)).collect()
}

/// Recordings: the edges of the active lines and of the frame, and every line of a frame in pieces as long as the finder takes.
fn good() -> Vec<Vec<u8>> {
    let mut inputs = Vec::new();
    for (format, most) in [(1, 264), (2, 220), (3, 110)] {
        for depth in [10, 12] {
            for line in [1, 41, 42, 1121, 1122, 1125] {
                inputs.extend([0, 1, 2, 3].map(|count| input(format, depth, line, count)));
            }
            inputs.push(input(format, depth, 1123, 5));
        }
        let depth = 10 + 2 * (format % 2);
        inputs.extend((1..=1125).step_by(most.into()).map(|line| input(format, depth, line, most)));
    }
    inputs
}

/// What is refused, in the order of the numbers.
fn bad() -> Vec<(u32, Vec<u8>)> {
    let mut inputs = Vec::new();
    for (format, depth) in [(0, 10), (4, 12), (255, 12), (1, 0), (2, 9), (3, 11), (1, 13), (1, 255)] {
        inputs.extend([(42, 1), (0, 1), (1126, 65535)].map(|(line, count)| (1, input(format, depth, line, count))));
    }
    for format in [1, 2, 3] {
        inputs.extend([0, 1126, 65535].map(|line| (2, input(format, 12, line, 65535))));
    }
    for (format, few) in [(1, 265), (2, 221), (3, 111)] {
        inputs.extend([few, 1125, 65535].map(|count| (3, input(format, 10, 1125, count))));
    }
    let whole = input(3, 12, 42, 1);
    inputs.extend([1, 1, 2, 2, 3, 3].into_iter().enumerate().map(|(length, number)| (number, whole[..length].to_vec())));
    inputs.push((2, vec![1, 12, 0, 0, 1]));
    inputs.push((1, vec![0, 12, 42]));
    inputs
}

fn compare(program: &str, lister: &str) {
    let (good, bad) = (good(), bad());
    for input in &good {
        let all = recording(input).expect("a good call");
        for (bytes, piece) in [(input.clone(), 1), (input.clone(), 6), ([&input[..], b"more"].concat(), 3)] {
            assert!(written(program, &bytes, piece) == all, "{input:?}, in pieces of {piece}");
        }
        assert_eq!(printed(lister, &all, 65_536), listing(input), "{input:?}: listed");
    }
    for (number, input) in &bad {
        assert_eq!(recording(input), Err((*number, 0)), "{input:?}");
        let (bytes, errors) = both_streams(Command::new(program), input, 6);
        assert!(bytes.is_empty(), "{input:?}: refused, and something on standard output");
        assert_eq!(String::from_utf8_lossy(&errors), format!("refused {number}\n"), "{input:?}");
    }
    for count in [0, 1] {
        let said = said_when_full(Command::new(program), &input(1, 12, 42, count));
        assert_eq!(said, "the recording: No space left on device (os error 28)\n", "{count} spans");
    }
    println!("the program writes {} recordings as the plain sender does, and list_spans lists their spans;", good.len());
    println!("  {} inputs are refused by their numbers, on standard error", bad.len());
}

fn make(folder: &str) {
    let stored = input(1, 12, 42, 1);
    for (name, bytes) in [("stdin", &stored), ("stdout", &recording(&stored).expect("a good call"))] {
        std::fs::write(format!("{folder}/{name}"), bytes).expect("the folder takes files");
    }
}

fn main() {
    let arguments: Vec<String> = std::env::args().skip(1).collect();
    match &arguments[..] {
        [word, folder] if word == "make" => make(folder),
        [program, lister] => compare(program, lister),
        _ => panic!("a program to compare and the one that lists spans, or make and a folder"),
    }
}
