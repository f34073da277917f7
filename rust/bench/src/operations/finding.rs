//! Noise searched from its beginning to its end: there is no span in it.

use super::Speeds;
use crate::cases::given;
use crate::fast::read::judge::Judge;
use crate::fast::read::{recording, tables};
use crate::recordings::{noise, noise_without_commas, spans_of};
use crate::timing::Three;
use plain::format::Format;
use plain::recording::LIMIT;
use random::Random;

const TURNS: usize = 400;

fn measured(judge: &mut Judge, format: Format, label: &str, symbols: &[u16]) -> Speeds {
    // Each run checks that there is none, so the versions agree in all of them.
    let three = Three::time(
        TURNS,
        || assert_eq!(brazulint::find(given(format), symbols, 0).result(), Ok(None)),
        || assert_eq!(recording::find(judge, format, symbols, 0), Ok(None)),
        || assert_eq!(plain::recording::find(format, symbols, 0), Ok(None)),
    );
    Speeds::of_symbols("find", format!("format {}, {label}", format.number), three, LIMIT)
}

pub fn measure() -> Vec<Speeds> {
    let tables = tables();
    let (mut judge, mut random) = (Judge::new(&tables), Random(4));
    let (noise, without) = (noise(&mut random), noise_without_commas(&mut random));
    let mut all: Vec<Speeds> = [1, 2, 3].map(|number| measured(&mut judge, spans_of(number), "noise", &noise)).into();
    all.push(measured(&mut judge, spans_of(1), "noise without K28.5", &without));
    all
}
