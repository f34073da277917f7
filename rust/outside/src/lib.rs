//! What the programs that compute or check the library's printed output share: running a program, random numbers, and spans to read.
//! Everything known about the link comes from `plain`; nothing comes from the library.

pub mod changed;
pub mod printed;
pub mod spans;
