//! Rows divided and joined (004, 5.3).

use super::Speeds;
use crate::cases::WIRE_SAMPLES;
use crate::fast::picture as fast;
use crate::timing::Three;
use random::Random;
use std::ops::Range;

/// A picture line, and a line of a basic image.
const LINE: usize = 3840;
const HALF: usize = 1920;

fn line(r: usize) -> Range<usize> {
    r * LINE..(r + 1) * LINE
}

fn half(r: usize) -> Range<usize> {
    r * HALF..(r + 1) * HALF
}

fn plain_split(row: &[u16]) -> [Vec<u16>; 2] {
    plain::picture::split(row, [HALF, HALF]).expect("a row")
}

fn plain_join(first: &[u16], second: &[u16]) -> Vec<u16> {
    plain::picture::join(first, second, LINE).expect("two rows")
}

/// Both halves of all rows of a picture.
fn halves(picture: &[u16]) -> [Vec<u16>; 2] {
    let rows: Vec<[Vec<u16>; 2]> = picture.chunks(LINE).map(plain_split).collect();
    [0, 1].map(|w| rows.iter().flat_map(|row| row[w].iter().copied()).collect())
}

fn agree(picture: &[u16], first: &[u16], second: &[u16]) {
    for r in 0..picture.len() / LINE {
        let (row, a, b) = (&picture[line(r)], &first[half(r)], &second[half(r)]);
        let [mut f, mut g, mut p, mut q] = [(); 4].map(|()| vec![0; HALF]);
        assert!(brazulint::split(row, &mut f, &mut g).is_ok() && fast::split(row, &mut p, &mut q).is_ok());
        assert!(f == a && g == b && p == a && q == b, "row {r} divided");
        let [mut joined, mut quickly] = [(); 2].map(|()| vec![0; LINE]);
        assert!(brazulint::join(a, b, &mut joined).is_ok() && fast::join(a, b, &mut quickly).is_ok());
        assert!(joined == row && quickly == row && plain_join(a, b) == row, "row {r} joined");
    }
}

/// `rows` rows, `times` times in one run. Each version has buffers of its own: none finds what another left in the cache. The plain one
/// allocates its rows, which are then copied to where the others put theirs: otherwise it would write only to the cache.
fn measured(label: &str, rows: usize, times: usize, turns: usize) -> [Speeds; 2] {
    let picture = Random(2).numbers(LINE * rows, 65_536);
    let [first, second] = halves(&picture);
    agree(&picture, &first, &second);
    let each = |work: &mut dyn FnMut(usize)| (0..times).for_each(|_| (0..rows).for_each(&mut *work));
    let [mut joined, mut quickly, mut plainly] = [(); 3].map(|()| vec![0; LINE * rows]);
    let [mut f, mut g, mut p, mut q, mut x, mut y] = [(); 6].map(|()| vec![0; HALF * rows]);
    let split = Three::time(
        turns,
        || each(&mut |r| assert!(brazulint::split(&picture[line(r)], &mut f[half(r)], &mut g[half(r)]).is_ok())),
        || each(&mut |r| assert!(fast::split(&picture[line(r)], &mut p[half(r)], &mut q[half(r)]).is_ok())),
        || {
            each(&mut |r| {
                let [a, b] = plain_split(&picture[line(r)]);
                x[half(r)].copy_from_slice(&a);
                y[half(r)].copy_from_slice(&b);
            })
        },
    );
    let join = Three::time(
        turns,
        || each(&mut |r| assert!(brazulint::join(&first[half(r)], &second[half(r)], &mut joined[line(r)]).is_ok())),
        || each(&mut |r| assert!(fast::join(&first[half(r)], &second[half(r)], &mut quickly[line(r)]).is_ok())),
        || each(&mut |r| plainly[line(r)].copy_from_slice(&plain_join(&first[half(r)], &second[half(r)]))),
    );
    [("split", split), ("join", join)].map(|(name, three)| Speeds::told(name, label, WIRE_SAMPLES, three, LINE * rows * times))
}

pub fn measure() -> Vec<Speeds> {
    let mut all = Vec::from(measured("one row, again and again", 1, 64, 2_000));
    all.extend(measured("a whole picture", 2160, 1, 100));
    all
}
