//! A link of C'B beside one of Y', which blanks at another word (004, 6.8): the same operations on the same lines, their runs in alternation.

use super::{delivering, judging, reading, sending, Run};
use crate::cases::{Case, BESIDE, SPANS, TURNS};
use crate::fast::{read, send};
use crate::timing::Least;

/// Y' and C'B.
const COMPONENTS: [u32; 2] = [4, 5];

/// The speeds of an operation in one case, in millions of symbols a second: of Y', and of C'B.
pub struct Beside {
    pub operation: &'static str,
    pub case: &'static str,
    pub library: [f64; 2],
    pub fast: [f64; 2],
}

/// Both versions on both components in alternation, `count` symbols to a run. What was measured is printed at once.
fn timed(operation: &'static str, case: &'static str, turns: usize, count: usize, mut runs: [[Run; 2]; 2]) -> Beside {
    let mut least = [[Least::NONE; 2]; 2];
    for _ in 0..turns {
        for (run, least) in runs.iter_mut().flatten().zip(least.iter_mut().flatten()) {
            least.time(run);
        }
    }
    let [luma, difference] = least.map(|versions| versions.map(|least| least.rate(count)));
    let (library, fast) = ([luma[0], difference[0]], [luma[1], difference[1]]);
    eprintln!("{operation}, {case}, Y' and C'B, M/s: library {library:.0?}, fast {fast:.0?}");
    Beside { operation, case, library, fast }
}

/// The four operations on spans in one case.
fn measured(case: &Case, sending: &send::Tables, reading: &read::Tables) -> [Beside; 4] {
    let (label, count) = (case.label, SPANS * case.shape().symbols());
    let cases = COMPONENTS.map(|component| case.carrying(component));
    let (spans, recordings) = (cases.each_ref().map(Case::sent), cases.each_ref().map(delivering::recorded));
    let each = [0, 1];
    [
        timed("send", label, TURNS, count, each.map(|k| sending::runs(sending, &cases[k]))),
        timed("read", label, TURNS, count, each.map(|k| reading::runs(reading, &cases[k], &spans[k]))),
        timed("judge", label, TURNS, count, each.map(|k| judging::runs(reading, &cases[k], &spans[k]))),
        timed("deliver", label, delivering::TURNS, recordings[0].len(), each.map(|k| delivering::runs(reading, &cases[k], &recordings[k]))),
    ]
}

pub fn measure() -> Vec<Beside> {
    let (sending, reading) = (send::tables(), read::tables());
    let mut all: Vec<Beside> = BESIDE.iter().flat_map(|case| measured(case, &sending, &reading)).collect();
    // By operation, as in the other table.
    all.sort_by_key(|beside| ["send", "read", "judge", "deliver"].iter().position(|name| *name == beside.operation));
    all
}
