//! Spans judged: what reading would answer, without rows.

use super::{Run, Speeds};
use crate::agreement::same;
use crate::cases::{given, Case, CASES, SPANS, TURNS};
use crate::fast::read::judge::Judge;
use crate::fast::read::{tables, Tables};
use crate::timing::Three;
use brazulint::Delivery;
use plain::read::Delivered;
use std::hint::black_box;

fn by_library(case: &Case, symbols: &[u16]) -> Delivery {
    brazulint::judge(given(case.format), symbols).result().expect("a span as it should be")
}

fn by_fast(judge: &mut Judge, case: &Case, symbols: &[u16]) -> Delivery {
    judge.judge(case.format, symbols).expect("a span as it should be")
}

fn by_plain(case: &Case, symbols: &[u16]) -> Delivered {
    plain::read::judge(case.format, symbols).expect("a span as it should be")
}

fn agree(judge: &mut Judge, case: &Case, symbols: &[u16]) {
    let expected = by_plain(case, symbols);
    assert!(same(&by_library(case, symbols), &expected), "{}: the library", case.label);
    assert!(same(&by_fast(judge, case, symbols), &expected), "{}: the fast version", case.label);
}

/// The runs of the library and of the fast version over these spans, on which they agree.
pub(super) fn runs<'a>(tables: &'a Tables, case: &'a Case, spans: &'a [Vec<u16>]) -> [Run<'a>; 2] {
    let mut judge = Judge::new(tables);
    spans.iter().for_each(|symbols| agree(&mut judge, case, symbols));
    [
        Box::new(move || spans.iter().for_each(|symbols| _ = by_library(case, symbols))),
        Box::new(move || spans.iter().for_each(|symbols| _ = by_fast(&mut judge, case, symbols))),
    ]
}

fn measured(tables: &Tables, case: &Case) -> Speeds {
    let spans = case.sent();
    let [library, fast] = runs(tables, case, &spans);
    let three = Three::time(TURNS, library, fast, || spans.iter().for_each(|symbols| _ = black_box(by_plain(case, symbols))));
    Speeds::of_symbols("judge", case.label, three, SPANS * case.shape().symbols())
}

pub fn measure() -> Vec<Speeds> {
    let tables = tables();
    CASES.iter().map(|case| measured(&tables, case)).collect()
}
