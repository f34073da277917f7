//! Reading spans as they were sent, and damaged in every way, with one change and with two.

use crate::calls;
use crate::damage::{bit_of_xyzs, damaged, DAMAGES};
use crate::report::{in_two, Report};
use crate::spans::{any_carrying, any_line, every_second, shape_of, Draft, COMPONENTS, EDGES, KINDS};
use plain::format::Format;
use random::Random;
use std::sync::atomic::{AtomicU64, Ordering};

/// How often each refusal must be met, and a delivery with a repair.
const OFTEN: u64 = 50;

/// How often each bit of each XYZ must be wrong in a span that is delivered, in each format.
const OF_EACH_BIT: u64 = 20;

/// How often each of 20 to 26 was met, how often a delivery had repairs, and how often by format, XYZ and bit.
#[derive(Default)]
pub struct Met {
    numbers: [AtomicU64; 27],
    repaired: AtomicU64,
    of_bit: [[[AtomicU64; 12]; 8]; 3],
}

pub fn run() -> Report {
    let met = Met::default();
    let mut r = in_two(valid);
    r.add(in_two(as_each_component));
    r.add(in_two(|part, r| single(part, r, &met)));
    r.add(in_two(|part, r| pairs(part, r, &met)));
    r.add(in_two(service_bits));
    r.add(in_two(|part, r| timing_words(part, r, &met)));
    r.add(in_two(|part, r| row_limits(part, r, &met)));
    for number in 20..=26 {
        let times = met.numbers[number].load(Ordering::Relaxed);
        r.holds(|| format!("refusal {number} was met {times} times only"), times >= OFTEN);
    }
    let times = met.repaired.load(Ordering::Relaxed);
    r.holds(|| format!("{times} deliveries only had repairs"), times >= OFTEN);
    for number in 1..=3 {
        for (xyz, bit) in (0..2 * shape_of(Format::plain(number, 12)).streams).flat_map(|xyz| (0..12).map(move |bit| (xyz, bit))) {
            let times = met.of_bit[number as usize - 1][xyz][bit].load(Ordering::Relaxed);
            r.holds(|| format!("format {number}: bit {bit} of XYZ {xyz} was repaired {times} times only"), times >= OF_EACH_BIT);
        }
    }
    r
}

/// Sent spans of every format, depth and component are delivered, with what was sent.
fn valid(part: usize, r: &mut Report) {
    let mut random = Random(0xBB + part as u64);
    for format in every_second(part) {
        let edges = EDGES.into_iter().chain([2, 43, 127, 128, 255, 256, 1123, 1124]);
        let lines: Vec<u32> = edges.chain((0..40).map(|_| random.within(1, 1125))).collect();
        for line in lines {
            let draft = Draft::of_line(&mut random, format, line);
            r.context = format!("a sent span of line {line}");
            let symbols = draft.symbols();
            let read = calls::read(r, format, &symbols, draft.shape.samples());
            calls::judge(r, format, &symbols);
            let same = read.is_ok_and(|d| (d.line, d.content, d.positive_before) == (line, draft.content, draft.positive));
            r.holds(|| format!("{format:?}, line {line} is not read as it was sent"), same);
        }
    }
}

/// A span is read alike as whatever component: one of C'B as Y', and as any other. Sent as it should be, and with a damage.
fn as_each_component(part: usize, r: &mut Report) {
    let mut random = Random(0x131 + part as u64);
    for (format, line) in every_second(part).flat_map(|format| EDGES.map(|line| (format, line))) {
        let (name, damage) = random.pick(&[DAMAGES[0], DAMAGES[random.0 as usize % DAMAGES.len()]]);
        let draft = Draft::of_line(&mut random, format, line);
        let samples = draft.shape.samples();
        let symbols = damaged(&mut random, draft, &[damage], true);
        r.context = format!("line {line} of component {}, damage: {name}", format.component);
        let own = calls::read(r, format, &symbols, samples);
        for other in COMPONENTS.map(|component| format.carrying(component)) {
            let read = calls::read(r, other, &symbols, samples);
            r.holds(|| format!("read as component {} it is another span", other.component), read == own);
            calls::judge(r, other, &symbols);
            calls::next(r, other, &symbols, 0, samples);
        }
    }
}

/// Reads and judges a span with the damages of these indices.
pub fn read_damaged(r: &mut Report, random: &mut Random, format: Format, line: u32, damages: &[usize], met: &Met) {
    let draft = Draft::of_line(random, format, line);
    let mended = random.flip();
    let names: Vec<&str> = damages.iter().map(|&i| DAMAGES[i].0).collect();
    let changes: Vec<_> = damages.iter().map(|&i| DAMAGES[i].1).collect();
    r.context = format!("line {line}, CRCC mended: {mended}, damages: {names:?}");
    read_and_judge(r, format, &damaged(random, draft, &changes, mended), met);
}

fn read_and_judge(r: &mut Report, format: Format, symbols: &[u16], met: &Met) {
    calls::judge(r, format, symbols);
    match calls::read(r, format, symbols, shape_of(format).samples()) {
        Ok(delivered) if delivered.repairs > 0 => drop(met.repaired.fetch_add(1, Ordering::Relaxed)),
        Err((number, _)) => drop(met.numbers[number as usize].fetch_add(1, Ordering::Relaxed)),
        Ok(_) => (),
    }
}

fn single(part: usize, r: &mut Report, met: &Met) {
    let mut random = Random(0xCC + part as u64);
    for kind in KINDS {
        for damage in (0..DAMAGES.len()).skip(part).step_by(2) {
            let some = [random.within(43, 1119), random.within(1, 39), random.within(42, 1121)];
            for line in EDGES.into_iter().chain(some) {
                let format = any_carrying(&mut random, kind);
                read_damaged(r, &mut random, format, line, &[damage], met);
            }
        }
    }
}

/// Every two damages, in each format, on a line of the picture or near its edges.
fn pairs(part: usize, r: &mut Report, met: &Met) {
    let mut random = Random(0xDD + part as u64);
    for one in (0..DAMAGES.len()).skip(part).step_by(2) {
        for two in 0..DAMAGES.len() {
            for number in 1..=3 {
                let kind = Format::plain(number, random.pick(&[10, 12]));
                let format = any_carrying(&mut random, kind);
                let line = if random.flip() { random.within(42, 1121) } else { random.pick(&EDGES) };
                read_damaged(r, &mut random, format, line, &[one, two], met);
            }
        }
    }
}

/// Every bit of every word of SAV, EAV, line number and CRCC, on lines where V changes and where it does not. For a word that the CRCC does
/// not cover, the CRCC stays as it is; otherwise it is mended or not.
fn service_bits(part: usize, r: &mut Report) {
    let mut random = Random(0xFF + part as u64);
    for kind in KINDS.into_iter().skip(part).step_by(2) {
        let (format, line) = (any_carrying(&mut random, kind), random.pick(&EDGES));
        let draft = Draft::of_line(&mut random, format, line);
        for k in (0..4).chain(1924..1932) {
            for (t, bit) in (0..draft.shape.streams).flat_map(|t| (0..12).map(move |bit| (t, bit))) {
                let mut changed = draft.clone();
                let at = changed.at(k, t);
                changed.words[at] ^= 1 << bit;
                if k < 1930 && random.flip() {
                    changed.mend();
                }
                r.context = format!("line {line}, bit {bit} of word {k} of stream {t}");
                drop(calls::read(r, format, &changed.symbols(), draft.shape.samples()));
            }
        }
    }
}

/// One wrong bit in each XYZ of a set, every set of them, and nothing else wrong: the span is delivered, and the repairs that are told are
/// those that were put in. Where there are fewer than eight XYZs, the sets come more often.
fn timing_words(part: usize, r: &mut Report, met: &Met) {
    let mut random = Random(0x121 + part as u64);
    for kind in KINDS.into_iter().skip(part).step_by(2) {
        for set in 0..512 {
            let (format, line) = (any_carrying(&mut random, kind), any_line(&mut random));
            let mut draft = Draft::of_line(&mut random, format, line);
            let wrong = bit_of_xyzs(&mut random, &mut draft, set);
            let mut of_bit = [0; 12];
            wrong.iter().for_each(|&(_, bit)| of_bit[bit] += 1);
            r.context = format!("line {line}, XYZs with their wrong bits: {wrong:?}");
            let (symbols, samples) = (draft.symbols(), draft.shape.samples());
            calls::judge(r, format, &symbols);
            calls::next(r, format, &symbols, 0, samples);
            let told = calls::read(r, format, &symbols, samples).map(|d| (d.repairs as usize, d.repairs_of_bit));
            r.holds(|| format!("{format:?}: {told:?} is told"), told == Ok((wrong.len(), of_bit)));
            for (xyz, bit) in wrong.into_iter().filter(|_| told.is_ok()) {
                met.of_bit[format.number as usize - 1][xyz][bit].fetch_add(1, Ordering::Relaxed);
            }
        }
    }
}

/// Words just outside what samples have, at either end of a row and within it, on lines of the picture and of blanking; the CRCC fits.
fn row_limits(part: usize, r: &mut Report, met: &Met) {
    let mut random = Random(0x111 + part as u64);
    for kind in KINDS {
        for line in [[42, 1122], [1121, 41]][part] {
            let format = any_carrying(&mut random, kind);
            let draft = Draft::of_line(&mut random, format, line);
            for word in [0, 12, 15, 16, 17, 18, 19, 20, 0x0FF, 0x100, 0x7FF, 0x800, 4076, 4077, 4079, 4080, 4095] {
                for k in [4, 4 + random.below(1920), 1923] {
                    let mut changed = draft.clone();
                    let at = changed.at(k, random.below(draft.shape.streams));
                    changed.words[at] = word;
                    changed.mend();
                    r.context = format!("line {line}, word {word:#x} at {at}");
                    read_and_judge(r, format, &changed.symbols(), met);
                }
            }
        }
    }
}
