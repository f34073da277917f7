//! The wrapper's names for numbers, and the header's.

use crate::report::Report;
use brazulint::{version, Format, Refusal, LIMIT, MOST_SAMPLES, MOST_SYMBOLS, NO_BIT, VERSION};

/// The header that C callers have.
const HEADER: &str = include_str!("../../../include/brazulint.h");

/// `NotAllowed(0)` is BRAZULINT_NOT_ALLOWED in the header.
fn header_name(refusal: Refusal) -> String {
    let told = format!("{refusal:?}");
    let variant = told.chars().take_while(|c| c.is_alphanumeric());
    variant.fold("BRAZULINT".to_string(), |name, c| name + if c.is_uppercase() { "_" } else { "" } + &c.to_uppercase().to_string())
}

/// What a format is made of, by its names.
const OF_FORMATS: [(&str, u32); 11] = [
    ("120_HZ", Format::HZ_120),
    ("100_HZ", Format::HZ_100),
    ("50_HZ", Format::HZ_50),
    ("G", Format::G),
    ("B", Format::B),
    ("R", Format::R),
    ("Y", Format::Y),
    ("CB", Format::CB),
    ("CR", Format::CR),
    ("444", Format::SAMPLING_444),
    ("4K", Format::SIZE_4K),
];

/// The wrapper has the header's numbers: each refusal under its name, with its words, those of formats, the version, the greatest lengths, and
/// no bit.
pub fn run() -> Report {
    let mut r = Report::default();
    for number in (1..=8).chain(20..=26) {
        let refusal = Refusal::check(number, 0).expect_err("a refusal");
        let name = header_name(refusal);
        r.holds(|| format!("the header has no {name} = {number}"), HEADER.contains(&format!("    {name} = {number}")));
        let text = format!("case {name}: return \"{}\";", refusal.words());
        r.holds(|| format!("the header has other words than the wrapper for {name}"), HEADER.contains(&text));
    }
    for (name, number) in OF_FORMATS {
        let told = [",", " }"].map(|end| format!(" BRAZULINT_{name} = {number}{end}"));
        r.holds(|| format!("the header has no {name} = {number}"), told.iter().any(|told| HEADER.contains(told)));
    }
    r.answer(|| "version".into(), version(), VERSION);
    let lengths = [("MOST_SAMPLES", MOST_SAMPLES), ("MOST_SYMBOLS", MOST_SYMBOLS), ("LIMIT", LIMIT)];
    for (name, number) in lengths.into_iter().chain([("VERSION", VERSION as usize), ("NO_BIT", NO_BIT as usize)]) {
        r.holds(|| format!("the header has no {name} {number}"), HEADER.contains(&format!("#define BRAZULINT_{name} {number}\n")));
    }
    r
}
