//! Measures the library against plain Rust, prints the tables of docs/BENCHMARKS.md, and writes its plot to the named file. Each
//! measurement is reported on standard error as it comes.

use bench::operations::components;
use bench::{growth, memory, operations, plot, tables};
use std::process::ExitCode;

fn main() -> ExitCode {
    let Some(file) = std::env::args_os().nth(1) else {
        eprintln!("usage: bench FILE.svg");
        return ExitCode::FAILURE;
    };
    let (speeds, components, growth) = (operations::measure(), components::measure(), growth::measure());
    println!("{}", tables::speeds(&speeds));
    println!("{}", tables::components(&components));
    println!("{}\n", memory::measure());
    println!("{}", tables::growth(&growth));
    println!("{}", tables::worst(&growth));
    match std::fs::write(&file, plot::svg(&speeds, &growth)) {
        Ok(()) => ExitCode::SUCCESS,
        Err(error) => {
            eprintln!("{}: {error}", file.to_string_lossy());
            ExitCode::FAILURE
        }
    }
}
