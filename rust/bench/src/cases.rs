//! The lines that are sent and read in the measurements.

use outside::spans::{sent_symbols, shape_of};
use plain::format::Format;
use plain::span::Shape;
use random::Random;

/// Spans in one run.
pub const SPANS: usize = 8;

/// Runs, of which the best counts.
pub const TURNS: usize = 3_000;

/// What the wire carries, in millions of symbols a second: 120 times 1,125 spans of 7,920 symbols, and as many in the other formats.
pub const WIRE: f64 = 1069.2;

/// What it carries of the picture in format 1, in millions of samples a second: the 3,840 of a picture row in each of these spans.
pub const WIRE_SAMPLES: f64 = 518.4;

/// The wrapper's format.
pub fn given(format: Format) -> brazulint::Format {
    brazulint::Format::plain(format.number, format.depth).carrying(format.component)
}

#[derive(Clone)]
pub struct Case {
    pub label: &'static str,
    pub format: Format,
    pub line: u32,
}

pub const CASES: [Case; 5] = [
    Case { label: "format 1, 12 bits", format: Format::plain(1, 12), line: 100 },
    Case { label: "format 2, 12 bits", format: Format::plain(2, 12), line: 100 },
    Case { label: "format 3, 12 bits", format: Format::plain(3, 12), line: 100 },
    Case { label: "format 1, 10 bits", format: Format::plain(1, 10), line: 100 },
    Case { label: "format 1, a blanking line", format: Format::plain(1, 12), line: 1 },
];

/// Cases in which the components are measured side by side.
pub const BESIDE: [Case; 6] = [
    Case { label: "format 1, 12 bits", format: Format::plain(1, 12), line: 100 },
    Case { label: "format 2, 12 bits", format: Format::plain(2, 12), line: 100 },
    Case { label: "format 3, 12 bits", format: Format::plain(3, 12), line: 100 },
    Case { label: "format 1, a blanking line", format: Format::plain(1, 12), line: 1 },
    Case { label: "format 2, a blanking line", format: Format::plain(2, 12), line: 1 },
    Case { label: "format 3, a blanking line", format: Format::plain(3, 12), line: 1 },
];

impl Case {
    /// The same for another component.
    pub fn carrying(&self, component: u32) -> Case {
        Case { format: self.format.carrying(component), ..self.clone() }
    }

    pub fn shape(&self) -> Shape {
        shape_of(self.format)
    }

    /// Spans to be read, all of this line.
    pub fn sent(&self) -> Vec<Vec<u16>> {
        let mut random = Random(2);
        (0..SPANS).map(|k| sent_symbols(&mut random, self.format, self.line, k % 2 == 1)).collect()
    }
}
