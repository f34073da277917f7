//! Compares the library with the plain implementation: `compare list`, `compare NAME [--seed N] [--calls N]`, `compare night [MINUTES]`.

mod areas;
mod blanking;
mod calls;
mod characters;
mod damage;
mod expected;
mod flips;
mod header;
mod lent;
mod night;
mod pictures;
mod pieces;
mod random_calls;
mod reading;
mod recordings;
mod refused_calls;
mod report;
mod sending;
mod spans;
mod vectors;
mod words;

use report::Report;
use std::process::ExitCode;

type Comparison = fn() -> Report;

/// All comparisons except the random one.
const COMPARISONS: [(&str, Comparison); 14] = [
    ("header", header::run),
    ("vectors", vectors::run),
    ("characters", characters::run),
    ("words", words::run),
    ("pictures", pictures::run),
    ("sending", sending::run),
    ("blanking", blanking::run),
    ("refused-calls", refused_calls::run),
    ("reading", reading::run),
    ("areas", areas::run),
    ("flips-1", flips::format_1),
    ("flips-2", flips::format_2),
    ("flips-3", flips::format_3),
    ("recordings", recordings::run),
];

fn main() -> ExitCode {
    let arguments: Vec<String> = std::env::args().skip(1).collect();
    let arguments: Vec<&str> = arguments.iter().map(String::as_str).collect();
    match run(&arguments) {
        Some(true) => ExitCode::SUCCESS,
        Some(false) => ExitCode::FAILURE,
        None => {
            eprintln!("compare list | compare NAME | compare random [--seed N] [--calls N] | compare night [MINUTES]");
            ExitCode::from(2)
        }
    }
}

/// Whether all was the same; none if the arguments make no sense.
fn run(arguments: &[&str]) -> Option<bool> {
    match arguments {
        ["list"] => {
            COMPARISONS.iter().for_each(|(name, _)| println!("{name}"));
            println!("random");
            Some(true)
        }
        ["night"] => Some(night::run(60)),
        ["night", minutes] => Some(night::run(minutes.parse().ok()?)),
        ["random", options @ ..] => {
            let (seed, calls) = options_of(options)?;
            Some(random_calls::run(seed, calls).print("random", Some(seed)))
        }
        [name] => {
            let (name, comparison) = COMPARISONS.iter().find(|(known, _)| known == name)?;
            Some(comparison().print(name, None))
        }
        _ => None,
    }
}

fn options_of(mut options: &[&str]) -> Option<(u64, u64)> {
    let (mut seed, mut calls) = (random_calls::SEED, random_calls::CALLS);
    while let [name, value, rest @ ..] = options {
        match *name {
            "--seed" => seed = value.parse().ok()?,
            "--calls" => calls = value.parse().ok()?,
            _ => return None,
        }
        options = rest;
    }
    options.is_empty().then_some((seed, calls))
}
