//! What is measured: each operation by the library, by the version written to be fast and by the plain one. Before that, all of them are
//! tried once on the measured input, and have to agree.

pub mod components;
mod delivering;
mod finding;
mod judging;
mod picture;
mod reading;
mod sending;

use crate::cases::WIRE;
use crate::timing::Three;

/// One run of a version.
type Run<'a> = Box<dyn FnMut() + 'a>;

/// The speeds in one case, in millions a second: of samples for split and join, otherwise of symbols.
pub struct Speeds {
    pub operation: &'static str,
    pub case: String,
    /// What the wire carries of these.
    pub wire: f64,
    pub library: f64,
    pub fast: f64,
    pub plain: f64,
}

impl Speeds {
    /// From an operation on `count` samples or symbols. What was measured is printed at once.
    fn told(operation: &'static str, case: impl Into<String>, wire: f64, three: Three, count: usize) -> Speeds {
        let (case, [library, fast, plain]) = (case.into(), [three.library, three.fast, three.plain].map(|time| time.rate(count)));
        eprintln!("{operation}, {case}, M/s: library {library:.0}, fast {fast:.0}, plain {plain:.0}, the wire {wire:.0}");
        Speeds { operation, case, wire, library, fast, plain }
    }

    fn of_symbols(operation: &'static str, case: impl Into<String>, three: Three, count: usize) -> Speeds {
        Speeds::told(operation, case, WIRE, three, count)
    }
}

pub fn measure() -> Vec<Speeds> {
    let works = [sending::measure, reading::measure, judging::measure, finding::measure, delivering::measure, picture::measure];
    works.into_iter().flat_map(|work| work()).collect()
}
