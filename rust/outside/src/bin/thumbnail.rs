//! Turns a binary 16-bit PGM from standard input into a small eight-bit PNG on standard output: each square of ten by ten samples becomes
//! its mean, so a lost line of the picture still shows as a darker one.

use std::io::{self, Read, Write};

const SIDE: usize = 10;

/// Width, height, the brightest value and the samples, or why there are none.
fn picture(pgm: &[u8]) -> Result<(usize, usize, usize, &[u8]), String> {
    let mut rest = pgm;
    let mut field = || {
        let start = rest.iter().position(|b| !b.is_ascii_whitespace()).unwrap_or(rest.len());
        let end = start + rest[start..].iter().position(u8::is_ascii_whitespace).unwrap_or(rest.len() - start);
        let text = String::from_utf8_lossy(&rest[start..end]).into_owned();
        rest = rest.get(end + 1..).unwrap_or(&[]);
        text
    };
    if field() != "P5" {
        return Err("no binary PGM".into());
    }
    let [width, height, top] = [field(), field(), field()].map(|text| text.parse::<usize>().unwrap_or(0));
    let long = width.checked_mul(height).and_then(|count| count.checked_mul(2));
    match long {
        Some(long) if long > 0 && (256..65_536).contains(&top) && rest.len() == long => Ok((width, height, top, rest)),
        _ => Err("no picture of 16-bit samples".into()),
    }
}

/// The rows of the small picture, each after a byte that says it is not filtered (PNG, 9.2).
fn smaller(width: usize, height: usize, top: usize, samples: &[u8]) -> Vec<u8> {
    let sample = |y: usize, x: usize| {
        let at = 2 * (y * width + x);
        usize::from(samples[at]) * 256 + usize::from(samples[at + 1])
    };
    let mean = |row: usize, column: usize| {
        let square = (0..SIDE * SIDE).map(|k| sample(row * SIDE + k / SIDE, column * SIDE + k % SIDE));
        (square.sum::<usize>() * 255 / (SIDE * SIDE * top)).min(255) as u8
    };
    (0..height / SIDE).flat_map(|row| std::iter::once(0).chain((0..width / SIDE).map(move |column| mean(row, column)))).collect()
}

/// PNG, annex D: the CRC of a chunk.
fn crc(bytes: &[u8]) -> u32 {
    let step = |c: u32, _| if c % 2 == 1 { c / 2 ^ 0xEDB8_8320 } else { c / 2 };
    !bytes.iter().fold(!0, |c, &byte| (0..8).fold(c ^ u32::from(byte), step))
}

/// RFC 1950: the data as it is, in uncompressed blocks of up to 65,535 bytes.
fn stored(data: &[u8]) -> Vec<u8> {
    let (a, b) = data.iter().fold((1u32, 0u32), |(a, b), &byte| {
        let a = (a + u32::from(byte)) % 65_521;
        (a, (a + b) % 65_521)
    });
    let mut out = vec![0x78, 0x01];
    let blocks = data.chunks(65_535);
    let last = blocks.len() - 1;
    for (k, block) in blocks.enumerate() {
        let long = block.len() as u16;
        out.push((k == last) as u8);
        out.extend(long.to_le_bytes());
        out.extend((!long).to_le_bytes());
        out.extend(block);
    }
    out.extend((b << 16 | a).to_be_bytes());
    out
}

fn chunk(kind: &[u8; 4], data: &[u8]) -> Vec<u8> {
    let named = [kind.as_slice(), data].concat();
    [(data.len() as u32).to_be_bytes().as_slice(), &named, &crc(&named).to_be_bytes()].concat()
}

fn main() -> Result<(), String> {
    let mut pgm = Vec::new();
    io::stdin().read_to_end(&mut pgm).map_err(|e| e.to_string())?;
    let (width, height, top, samples) = picture(&pgm)?;
    let size = [(width / SIDE) as u32, (height / SIDE) as u32].map(u32::to_be_bytes).concat();
    // eight bits, grey, the only methods of compression and filtering there are, and no interlacing
    let header = [size.as_slice(), &[8, 0, 0, 0, 0]].concat();
    let png = [
        b"\x89PNG\r\n\x1a\n".to_vec(),
        chunk(b"IHDR", &header),
        chunk(b"IDAT", &stored(&smaller(width, height, top, samples))),
        chunk(b"IEND", &[]),
    ];
    io::stdout().write_all(&png.concat()).map_err(|e| e.to_string())
}
