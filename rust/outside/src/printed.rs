//! What a program writes for an input, to standard output and to standard error. Its exit status is 0: a program in Rattle has no other
//! (docs/DECISIONS.md, "The programs").

use std::io::{Read, Write};
use std::process::{Command, Stdio};
use std::thread::spawn;

/// What the program writes when the input arrives in pieces. It may stop reading once it has enough. It says nothing on standard error.
pub fn written(program: &str, input: &[u8], piece: usize) -> Vec<u8> {
    written_by(Command::new(program), input, piece)
}

/// The same for a program with arguments, or in a folder of its own.
pub fn written_by(command: Command, input: &[u8], piece: usize) -> Vec<u8> {
    let (bytes, errors) = both_streams(command, input, piece);
    assert_eq!(String::from_utf8_lossy(&errors), "", "on standard error");
    bytes
}

/// What it writes to standard output, and to standard error.
pub fn both_streams(mut command: Command, input: &[u8], piece: usize) -> (Vec<u8>, Vec<u8>) {
    command.stdin(Stdio::piped()).stdout(Stdio::piped()).stderr(Stdio::piped());
    let mut child = command.spawn().expect("the program starts");
    let mut stdin = child.stdin.take().unwrap();
    let pieces = input.to_vec();
    let feeder = spawn(move || pieces.chunks(piece).try_for_each(|c| stdin.write_all(c)).is_ok());
    let mut stderr = child.stderr.take().unwrap();
    let listener = spawn(move || {
        let mut errors = Vec::new();
        stderr.read_to_end(&mut errors).map(|_| errors)
    });
    let mut bytes = Vec::new();
    child.stdout.take().unwrap().read_to_end(&mut bytes).expect("the program writes");
    feeder.join().unwrap();
    let errors = listener.join().unwrap().expect("the program writes");
    assert!(child.wait().unwrap().success());
    (bytes, errors)
}

/// What it says on standard error if standard output takes nothing.
pub fn said_when_full(mut command: Command, input: &[u8]) -> String {
    let full = std::fs::OpenOptions::new().write(true).open("/dev/full").expect("a file that takes nothing");
    let mut child = command.stdin(Stdio::piped()).stdout(full).stderr(Stdio::piped()).spawn().expect("the program starts");
    child.stdin.take().unwrap().write_all(input).expect("the program reads");
    let told = child.wait_with_output().expect("the program ends");
    assert!(told.status.success());
    String::from_utf8(told.stderr).expect("text")
}

/// The same for a program that prints text.
pub fn printed(program: &str, input: &[u8], piece: usize) -> String {
    String::from_utf8(written(program, input, piece)).expect("the program prints text")
}
