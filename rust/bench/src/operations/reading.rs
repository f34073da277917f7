//! Spans read (004, clauses 6 and 7.1; 01, "Receiving and finding").

use super::{Run, Speeds};
use crate::agreement::same;
use crate::cases::{given, Case, CASES, SPANS, TURNS};
use crate::fast::read::{read, tables, Tables};
use crate::timing::Three;
use brazulint::Delivery;
use plain::read::Delivered;
use std::hint::black_box;

fn by_library(case: &Case, symbols: &[u16], rows: &mut [u16]) -> Delivery {
    brazulint::read(given(case.format), symbols, rows).result().expect("a span as it should be")
}

fn by_fast(tables: &Tables, case: &Case, symbols: &[u16], rows: &mut [u16]) -> Delivery {
    read(tables, case.format, symbols, rows).expect("a span as it should be")
}

fn by_plain(case: &Case, symbols: &[u16]) -> Delivered {
    plain::read::read(case.format, symbols, case.shape().samples()).expect("a span as it should be")
}

fn agree(tables: &Tables, case: &Case, symbols: &[u16]) {
    let expected = by_plain(case, symbols);
    let [mut own, mut quick] = [(); 2].map(|()| vec![0; expected.rows.len()]);
    assert!(same(&by_library(case, symbols, &mut own), &expected) && own == expected.rows, "{}: the library", case.label);
    assert!(same(&by_fast(tables, case, symbols, &mut quick), &expected) && quick == expected.rows, "{}: the fast version", case.label);
}

/// The runs of the library and of the fast version over these spans, on which they agree.
pub(super) fn runs<'a>(tables: &'a Tables, case: &'a Case, spans: &'a [Vec<u16>]) -> [Run<'a>; 2] {
    spans.iter().for_each(|symbols| agree(tables, case, symbols));
    let [mut rows, mut other] = [(); 2].map(|()| vec![0; case.shape().samples()]);
    [
        Box::new(move || spans.iter().for_each(|symbols| _ = by_library(case, symbols, &mut rows))),
        Box::new(move || spans.iter().for_each(|symbols| _ = by_fast(tables, case, symbols, &mut other))),
    ]
}

fn measured(tables: &Tables, case: &Case) -> Speeds {
    let spans = case.sent();
    let [library, fast] = runs(tables, case, &spans);
    let three = Three::time(TURNS, library, fast, || spans.iter().for_each(|symbols| _ = black_box(by_plain(case, symbols))));
    Speeds::of_symbols("read", case.label, three, SPANS * case.shape().symbols())
}

pub fn measure() -> Vec<Speeds> {
    let tables = tables();
    CASES.iter().map(|case| measured(&tables, case)).collect()
}
