//! What was measured, as the tables of docs/BENCHMARKS.md.

use crate::cases::WIRE;
use crate::growth::{Growth, LENGTHS, SHORTEST};
use crate::operations::components::Beside;
use crate::operations::Speeds;

/// A whole number with a comma between groups of three digits.
pub fn grouped(number: f64) -> String {
    let digits = format!("{number:.0}");
    let pieces: Vec<&str> = digits.as_bytes().rchunks(3).rev().map(|piece| std::str::from_utf8(piece).expect("digits")).collect();
    pieces.join(",")
}

pub fn speeds(all: &[Speeds]) -> String {
    let mut table = String::from(
        "| operation | case | library, M symbols/s (split and join: samples) | times the wire | times the hand-optimised version's speed (1.00 or more: at least as fast) \
         | times the independent version's speed |\n|---|---|--:|--:|--:|--:|\n",
    );
    for Speeds { operation, case, wire, library, fast, plain } in all {
        let [over_wire, over_fast, over_plain] = [wire, fast, plain].map(|other| library / other);
        let rate = grouped(*library);
        table += &format!("| {operation} | {case} | {rate} | {over_wire:.2} | {over_fast:.2} | {over_plain:.1} |\n");
    }
    table
}

/// C'B beside Y'.
pub fn components(all: &[Beside]) -> String {
    let mut table = String::from(
        "| operation | case | Y', library, M symbols/s | C'B, library, M symbols/s | C'B, times the speed of Y' \
         | the same, hand-optimised | C'B, times the hand-optimised version's speed |\n|---|---|--:|--:|--:|--:|--:|\n",
    );
    for Beside { operation, case, library: [luma, difference], fast: [fast_luma, fast_difference] } in all {
        let [of_library, of_fast, over_fast] = [difference / luma, fast_difference / fast_luma, difference / fast_difference];
        let rates = [luma, difference].map(|rate| grouped(*rate)).join(" | ");
        table += &format!("| {operation} | {case} | {rates} | {of_library:.2} | {of_fast:.2} | {over_fast:.2} |\n");
    }
    table
}

pub fn growth(all: &[Growth]) -> String {
    let lengths: Vec<String> = (SHORTEST..SHORTEST + LENGTHS).map(|k| format!("2^{k}")).collect();
    let mut table = format!("| recording | version | {} |\n|---|---|{}\n", lengths.join(" | "), "--:|".repeat(LENGTHS));
    for Growth { label, library, fast } in all {
        for (version, times) in [("library", Some(library)), ("hand-optimised", fast.as_ref())] {
            if let Some(times) = times {
                table += &format!("| {label} | {version} | {} |\n", times.map(|time| format!("{time:.3}")).join(" | "));
            }
        }
    }
    table
}

/// The longest time that the library takes for a symbol of any of these recordings, beside the wire's.
pub fn worst(all: &[Growth]) -> String {
    let every = all.iter().flat_map(|growth| growth.library.iter().enumerate().map(move |(k, time)| (time, k, &growth.label)));
    let (time, k, label) = every.max_by(|a, b| a.0.total_cmp(b.0)).expect("recordings");
    let wire = 1e3 / WIRE;
    format!("The slowest of all for the library: {label}, 2^{}, {time:.2} ns a symbol; the wire takes {wire:.2}.", SHORTEST + k)
}
