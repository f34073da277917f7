//! A recording of many spans delivered, by steps of the next span.

use super::{Run, Speeds};
use crate::agreement::same;
use crate::cases::{given, Case, CASES};
use crate::fast::read::judge::Judge;
use crate::fast::read::{recording, tables, Tables};
use crate::timing::Three;
use brazulint::Delivery;
use outside::spans::sent_symbols;
use plain::read::Delivered;
use random::Random;

const SPANS: usize = 100;
pub(super) const TURNS: usize = 500;

/// Spans one after another, of forty lines that are all active or all blanking as the case says.
pub(super) fn recorded(case: &Case) -> Vec<u16> {
    let mut random = Random(7);
    let span = |k| sent_symbols(&mut random, case.format, case.line + k as u32 % 40, k % 2 == 1);
    (0..SPANS).flat_map(span).collect()
}

// Each version gives the place after the span, and what it says.

fn by_library(case: &Case, symbols: &[u16], start: u64, rows: &mut [u16]) -> Option<(u64, Delivery)> {
    let answer = brazulint::next(given(case.format), symbols, start, rows);
    let next = answer.result().expect("a recording that is not too long");
    next.map(|(_, delivery)| (answer.resume, delivery))
}

fn by_fast(judge: &mut Judge, case: &Case, symbols: &[u16], start: u64, rows: &mut [u16]) -> Option<(u64, Delivery)> {
    let next = recording::next(judge, case.format, symbols, start, rows).expect("a recording that is not too long");
    next.map(|(place, delivery)| (place + case.shape().symbols() as u64, delivery))
}

fn by_plain(case: &Case, symbols: &[u16], start: u64) -> Option<(u64, Delivered)> {
    let shape = case.shape();
    let next = plain::recording::next(case.format, symbols, start, shape.samples()).expect("a recording that is not too long");
    next.map(|(place, delivered)| (place + shape.symbols() as u64, delivered))
}

fn agree(judge: &mut Judge, case: &Case, symbols: &[u16]) {
    let [mut own, mut quick] = [(); 2].map(|()| vec![0; case.shape().samples()]);
    let (mut start, mut count) = (0, 0);
    while let Some((after, expected)) = by_plain(case, symbols, start) {
        let right = |next: Option<(u64, Delivery)>| next.is_some_and(|(end, delivery)| end == after && same(&delivery, &expected));
        assert!(right(by_library(case, symbols, start, &mut own)) && own == expected.rows, "{}: the library", case.label);
        assert!(right(by_fast(judge, case, symbols, start, &mut quick)) && quick == expected.rows, "{}: the fast version", case.label);
        (start, count) = (after, count + 1);
    }
    assert!(count == SPANS && by_library(case, symbols, start, &mut own).is_none());
    assert!(by_fast(judge, case, symbols, start, &mut quick).is_none());
}

/// Steps to the end of a recording, all of whose spans have to be delivered.
fn steps<T>(mut next: impl FnMut(u64) -> Option<(u64, T)>) {
    let (mut start, mut count) = (0, 0);
    while let Some((after, _)) = next(start) {
        (start, count) = (after, count + 1);
    }
    assert_eq!(count, SPANS);
}

/// The runs of the library and of the fast version over a recording, on which they agree.
pub(super) fn runs<'a>(tables: &'a Tables, case: &'a Case, symbols: &'a [u16]) -> [Run<'a>; 2] {
    let mut judge = Judge::new(tables);
    agree(&mut judge, case, symbols);
    let [mut rows, mut other] = [(); 2].map(|()| vec![0; case.shape().samples()]);
    [
        Box::new(move || steps(|start| by_library(case, symbols, start, &mut rows))),
        Box::new(move || steps(|start| by_fast(&mut judge, case, symbols, start, &mut other))),
    ]
}

fn measured(tables: &Tables, case: &Case) -> Speeds {
    let symbols = recorded(case);
    let [library, fast] = runs(tables, case, &symbols);
    let three = Three::time(TURNS, library, fast, || steps(|start| by_plain(case, &symbols, start)));
    Speeds::of_symbols("deliver", case.label, three, symbols.len())
}

pub fn measure() -> Vec<Speeds> {
    let tables = tables();
    CASES.iter().map(|case| measured(&tables, case)).collect()
}
