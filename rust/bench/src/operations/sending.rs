//! Spans sent (004, clauses 6 and 7.1; 01, "A span" and "Sending").

use super::{Run, Speeds};
use crate::cases::{given, Case, CASES, SPANS, TURNS};
use crate::fast::send::{allowed, send, tables, Tables};
use crate::timing::Three;
use brazulint::{Content, Request, StreamLine};
use plain::span::Asked;
use random::Random;
use std::hint::black_box;

fn samples(case: &Case) -> Vec<u16> {
    let mut random = Random(2);
    let (low, high, _) = allowed(case.format, case.line);
    (0..case.shape().samples()).map(|_| random.within(low.into(), high.into()) as u16).collect()
}

fn asked(case: &Case, positive: bool) -> Asked {
    Asked { format: case.format, line: case.line, positive, content: Some([4, 0, 4, 0]) }
}

// Each version gives the disparity after the span.

fn by_library(asked: Asked, samples: &[u16], symbols: &mut [u16]) -> bool {
    let Asked { format, line, positive, content } = asked;
    let [sav1, sav2, eav1, eav2] = content.unwrap_or([0; 4]);
    let request = Request::new(StreamLine(line), positive).naming(Content { sav1, sav2, eav1, eav2 });
    brazulint::send(given(format), request, samples, symbols).result().expect("a span that may be sent")
}

fn by_fast(tables: &Tables, asked: Asked, samples: &[u16], symbols: &mut [u16]) -> bool {
    send(tables, asked, samples, symbols).expect("a span that may be sent")
}

fn by_plain(asked: Asked, samples: &[u16], room: usize) -> (Vec<u16>, bool) {
    plain::span::send(asked, samples, room).expect("a span that may be sent")
}

fn agree(tables: &Tables, case: &Case, samples: &[u16]) {
    let room = case.shape().symbols();
    for asked in [false, true].map(|positive| asked(case, positive)) {
        let (expected, after) = by_plain(asked, samples, room);
        let [mut own, mut quick] = [(); 2].map(|()| vec![0; room]);
        assert!(by_library(asked, samples, &mut own) == after && own == expected, "{asked:?}: the library");
        assert!(by_fast(tables, asked, samples, &mut quick) == after && quick == expected, "{asked:?}: the fast version");
    }
}

/// The spans of one run, each from the disparity that the previous one left.
fn spans(case: &Case, mut send: impl FnMut(Asked) -> bool) {
    (0..SPANS).fold(false, |positive, _| send(asked(case, positive)));
}

/// The runs of the library and of the fast version, which agree.
pub(super) fn runs<'a>(tables: &'a Tables, case: &'a Case) -> [Run<'a>; 2] {
    let (samples, room) = (samples(case), case.shape().symbols());
    agree(tables, case, &samples);
    let ([mut symbols, mut other], same) = ([(); 2].map(|()| vec![0; room]), samples.clone());
    [
        Box::new(move || spans(case, |asked| by_library(asked, &samples, &mut symbols))),
        Box::new(move || spans(case, |asked| by_fast(tables, asked, &same, &mut other))),
    ]
}

fn measured(tables: &Tables, case: &Case) -> Speeds {
    let ([library, fast], samples, room) = (runs(tables, case), samples(case), case.shape().symbols());
    let three = Three::time(TURNS, library, fast, || spans(case, |asked| black_box(by_plain(asked, &samples, room)).1));
    Speeds::of_symbols("send", case.label, three, SPANS * room)
}

pub fn measure() -> Vec<Speeds> {
    let tables = tables();
    CASES.iter().map(|case| measured(&tables, case)).collect()
}
