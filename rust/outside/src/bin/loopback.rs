//! What the loopback rig must write and print, computed piece by piece with the plain sender, reader and division, and compared whole with
//! what the program given as the first argument writes into a folder, the second argument, and prints.

use outside::printed::{said_when_full, written_by};
use plain::format::Format;
use plain::picture::{join, place};
use plain::recording::delivery;
use plain::span::{send, shape, Asked, ROW};
use plain::test_picture::samples;
use plain::words::is_active;
use random::Random;
use std::collections::BTreeMap;
use std::path::Path;
use std::process::{Command, Stdio};

const FORMAT: Format = Format::plain(3, 12);
const LINES: u32 = 1125;
const SPAN: u32 = 19_008;
/// The symbols of five spans.
const PIECE: usize = 5 * SPAN as usize;
const FRAME: u32 = LINES * SPAN;
const HEADER: &[u8] = b"P5\n3840 2160\n4095\n";

/// Place and length.
type Knock = (u32, u32);

/// A thousandth of the 50 frames in a second, around the middle of the span of stream line 401, which carries picture line 720, the middle of
/// the test picture's rings.
const DEFAULT: Knock = (400 * SPAN + SPAN / 2 - FRAME / 40, FRAME / 20);

/// Every symbol of a frame of the test picture, the disparity handed from line to line.
fn sent() -> Vec<u16> {
    let shape = shape(FORMAT).expect("a known format");
    let (mut all, mut positive) = (Vec::with_capacity(FRAME as usize), false);
    for line in 1..=LINES {
        let asked = Asked { format: FORMAT, line, positive, content: None };
        let (symbols, after) = send(asked, &samples(FORMAT, line), shape.symbols()).expect("a good call");
        all.extend(symbols);
        positive = after;
    }
    all
}

/// The lines delivered from a piece, each with the two picture lines that it brings: images 1 and 2 joined, then 3 and 4.
type Received = BTreeMap<u32, Vec<u16>>;

fn receive(symbols: &[u16]) -> Received {
    let joined = |rows: &[u16], t: usize| {
        let [first, second] = [t, t + 1].map(|t| &rows[ROW * t..ROW * (t + 1)]);
        join(first, second, 2 * ROW).expect("rows of two images")
    };
    let mut lines = BTreeMap::new();
    for (_, span) in delivery(FORMAT, symbols).expect("a recording that is short enough") {
        let rows = [0, 2].map(|t| joined(&span.rows, t)).concat();
        assert_eq!(lines.insert(span.line, rows), None, "line {} twice in a piece", span.line);
    }
    lines
}

/// A frame, and what is received of each piece of it if the plug is not knocked.
struct Rig {
    symbols: Vec<u16>,
    clean: Vec<Received>,
}

impl Rig {
    fn new() -> Rig {
        let symbols = sent();
        let clean = symbols.chunks(PIECE).map(receive).collect();
        Rig { symbols, clean }
    }

    /// What is received of a piece if it is.
    fn received(&self, piece: usize, (place, length): Knock) -> Received {
        let from = piece * PIECE;
        let inside = |place: u64| place.clamp(from as u64, (from + PIECE) as u64) as usize - from;
        let dark = inside(place.into())..inside(u64::from(place) + u64::from(length));
        if dark.is_empty() {
            return self.clean[piece].clone();
        }
        let mut symbols = self.symbols[from..from + PIECE].to_vec();
        symbols[dark].fill(0);
        receive(&symbols)
    }

    /// The picture's file, and what is printed.
    fn outcome(&self, knock: Knock) -> (Vec<u8>, String) {
        let (mut file, mut lost) = (HEADER.to_vec(), Vec::new());
        for piece in 0..self.clean.len() {
            let mut lines = self.received(piece, knock);
            for line in (1..=5).map(|k| 5 * piece as u32 + k) {
                let rows = lines.remove(&line).unwrap_or_else(|| {
                    lost.push(line);
                    vec![0; 4 * ROW]
                });
                if is_active(line) {
                    file.extend(rows.iter().flat_map(|word| word.to_be_bytes()));
                }
            }
            assert!(lines.is_empty(), "lines that were not sent in piece {piece}");
        }
        (file, summary(&lost))
    }
}

/// The two picture lines that a stream line carries, by where the division puts the lines of the picture.
fn carried(stream_line: u32) -> String {
    let on = |line: &u32| place(*line, 0).expect("a line of the picture").stream_line == stream_line;
    match (1..=2160).filter(on).collect::<Vec<u32>>()[..] {
        [] => "frame blanking".into(),
        [odd, even] => format!("picture lines {odd} and {even}"),
        _ => panic!("stream line {stream_line} carries other than two lines of the picture"),
    }
}

/// What is printed for the stream lines that were lost.
fn summary(lost: &[u32]) -> String {
    let mut text = format!("stream lines sent {LINES}\nstream lines delivered {}\n", LINES as usize - lost.len());
    text += &format!("stream lines lost {}\n", lost.len());
    for (name, line) in [("first", lost.first()), ("last", lost.last())] {
        if let Some(line) = line {
            text += &format!("{name} stream line lost {line} ({})\n", carried(*line));
        }
    }
    text
}

/// The edges of the frame, of a piece and of a span, and more than there is.
fn edges() -> Vec<Knock> {
    let [line_42, line_500, boundary] = [41 * SPAN, 499 * SPAN, 100 * PIECE as u32];
    vec![
        DEFAULT,
        (FRAME / 2, 0),
        (FRAME / 2, FRAME / 20),
        (0, 1),
        (0, SPAN),
        (FRAME - 1, 1),
        (FRAME - 1, u32::MAX),
        (FRAME, 1_000_000),
        (u32::MAX, u32::MAX),
        (line_500, 1),
        (line_500 + 1, 1),
        (line_500 + SPAN - 1, 1),
        (line_500 + SPAN - 1, 2),
        (line_500 + 7, SPAN),
        (boundary - 10_000, 20_000),
        (0, line_42),
        (line_42, 1080 * SPAN),
        (0, FRAME),
        (0, u32::MAX),
    ]
}

fn input((place, length): Knock) -> Vec<u8> {
    [place.to_le_bytes(), length.to_le_bytes()].concat()
}

/// The program with an argument, in a folder.
fn run(program: &Path, folder: &Path, argument: Option<&str>) -> Command {
    let mut command = Command::new(program);
    command.current_dir(folder).args(argument);
    command
}

fn compare(program: &Path, folder: &Path) {
    const SEED: u64 = 5;
    const BY_CHANCE: usize = 12;
    let (rig, mut random) = (Rig::new(), Random(SEED));
    let mut knocks = edges();
    knocks.extend((0..BY_CHANCE).map(|_| (random.within(0, FRAME), random.pick(&[1, 2 * SPAN, 20 * SPAN]) + random.within(0, SPAN))));
    for &knock in &knocks {
        let (file, text) = rig.outcome(knock);
        for after in ["", "ignored"] {
            let bytes = [&input(knock)[..], after.as_bytes()].concat();
            let printed = written_by(run(program, folder, Some("knocked.pgm")), &bytes, 3);
            assert_eq!(String::from_utf8_lossy(&printed), text, "{knock:?}");
            assert!(std::fs::read(folder.join("knocked.pgm")).expect("a picture") == file, "{knock:?}: another picture");
        }
    }
    // Fewer than eight bytes, and no name.
    let (file, text) = rig.outcome(DEFAULT);
    for length in [0, 4, 7] {
        let _ = std::fs::remove_file(folder.join("loopback.pgm"));
        let printed = written_by(run(program, folder, None), &input((0, FRAME))[..length], 1);
        assert_eq!(String::from_utf8_lossy(&printed), text, "{length} bytes");
        assert!(std::fs::read(folder.join("loopback.pgm")).expect("a picture") == file, "{length} bytes: another picture");
    }
    // A name that cannot be opened, and a file that takes nothing.
    for name in ["no_such_folder/picture.pgm", "", &"long".repeat(2000), "/dev/full"] {
        let told = run(program, folder, Some(name)).stdin(Stdio::null()).output().expect("the program starts");
        assert!(told.status.success() && told.stdout.is_empty() && !told.stderr.is_empty(), "{name}");
    }
    // A standard output that takes nothing: the picture is there, and the summary is not.
    let said = said_when_full(run(program, folder, Some("knocked.pgm")), &[]);
    assert_eq!(said, "the summary: No space left on device (os error 28)\n");
    assert!(std::fs::read(folder.join("knocked.pgm")).expect("a picture") == file, "another picture");
    println!("the rig writes and prints what the plain reader receives for {} knocks, {BY_CHANCE} of them of seed {SEED}", knocks.len());
}

fn main() {
    let arguments: Vec<String> = std::env::args().skip(1).collect();
    let [program, folder] = &arguments[..] else {
        panic!("a program to compare, and a folder for its pictures");
    };
    std::fs::create_dir_all(folder).expect("the folder can be made");
    compare(&Path::new(program).canonicalize().expect("a program"), Path::new(folder));
}
