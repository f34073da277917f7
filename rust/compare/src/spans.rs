//! Random spans, as words that can still be changed.

use plain::format::Format;
use plain::span::{characters, row_words, shape, symbols, words, Asked, Shape};
use plain::words::{blanking, crcc_of, is_active, nearest};
use random::Random;

/// Every format at every depth, of G'.
pub const KINDS: [Format; 6] =
    [Format::plain(1, 10), Format::plain(1, 12), Format::plain(2, 10), Format::plain(2, 12), Format::plain(3, 10), Format::plain(3, 12)];

/// The components that a link may carry: G', B', R', Y', C'B, C'R.
pub const COMPONENTS: [u32; 6] = [1, 2, 3, 4, 5, 6];

/// The fields of a format, in the order of the header.
pub const FIELDS: [fn(&mut Format) -> &mut u32; 5] =
    [|f| &mut f.number, |f| &mut f.depth, |f| &mut f.component, |f| &mut f.structure, |f| &mut f.size];

/// The lines at which something changes.
pub const EDGES: [u32; 8] = [1, 40, 41, 42, 1120, 1121, 1122, 1125];

pub fn shape_of(format: Format) -> Shape {
    shape(format).expect("a known format")
}

/// A kind, of any component.
pub fn any_carrying(random: &mut Random, kind: Format) -> Format {
    kind.carrying(random.pick(&COMPONENTS))
}

/// Any kind, of any component.
pub fn any_kind(random: &mut Random) -> Format {
    let kind = random.pick(&KINDS);
    any_carrying(random, kind)
}

/// Every second kind, with every component.
pub fn every_second(part: usize) -> impl Iterator<Item = Format> {
    KINDS.into_iter().skip(part).step_by(2).flat_map(|kind| COMPONENTS.map(|component| kind.carrying(component)))
}

/// A line: an edge, or any.
pub fn any_line(random: &mut Random) -> u32 {
    match random.below(3) {
        0 => random.pick(&EDGES),
        _ => random.within(1, 1125),
    }
}

pub fn any_content(random: &mut Random) -> [u8; 4] {
    [(); 4].map(|()| random.next() as u8)
}

/// Samples that may be sent, often the ends of the range.
pub fn any_samples(random: &mut Random, format: Format, line: u32) -> Vec<u16> {
    let count = shape_of(format).samples();
    if !is_active(line) {
        return vec![blanking(format); count];
    }
    let (low, high) = if format.depth == 10 { (4, 1019) } else { (16, 4079) };
    let mut sample = || match random.below(8) {
        0 => low,
        1 => high,
        _ => random.within(low, high),
    };
    (0..count).map(|_| sample() as u16).collect()
}

/// A random span as it is sent.
pub fn any_sent(random: &mut Random, format: Format) -> Vec<u16> {
    Draft::at_random(random, format).symbols()
}

/// The words of a span before they are coded.
#[derive(Clone)]
pub struct Draft {
    pub shape: Shape,
    pub positive: bool,
    pub content: [u8; 4],
    pub words: Vec<u16>,
}

impl Draft {
    pub fn of_line(random: &mut Random, format: Format, line: u32) -> Draft {
        let shape = shape_of(format);
        let samples = any_samples(random, format, line);
        let rows = row_words(format, line, &samples).expect("samples that may be sent");
        let words = words(format, line, &rows).expect("a stream line");
        Draft { shape, positive: random.flip(), content: any_content(random), words }
    }

    pub fn at_random(random: &mut Random, format: Format) -> Draft {
        let line = any_line(random);
        Draft::of_line(random, format, line)
    }

    /// The place of word k of stream t.
    pub fn at(&self, k: usize, t: usize) -> usize {
        k * self.shape.streams + t
    }

    /// Sets the CRCC of every stream to that of its words, with the XYZ of the EAV repaired.
    pub fn mend(&mut self) {
        for t in 0..self.shape.streams {
            let mut run: Vec<u16> = (4..1930).map(|k| self.words[self.at(k, t)]).collect();
            run[1927 - 4] = nearest(run[1927 - 4]).map_or(run[1927 - 4], |r| r.word);
            for (i, word) in crcc_of(&run).words.into_iter().enumerate() {
                let at = self.at(1930 + i, t);
                self.words[at] = word;
            }
        }
    }

    pub fn characters(&self) -> Vec<u16> {
        characters(self.shape, &self.words, self.content)
    }

    pub fn symbols(&self) -> Vec<u16> {
        symbols(self.positive, &self.characters()).0
    }
}

/// A random request to the sender.
pub fn any_asked(random: &mut Random, format: Format, line: u32, positive: bool) -> Asked {
    let content = random.flip().then(|| any_content(random));
    Asked { format, line, positive, content }
}
