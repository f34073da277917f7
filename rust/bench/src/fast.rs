//! Versions in plain Rust written to be as fast as we could make them: what the library's speed is compared with.

pub mod picture;
pub mod read;
pub mod send;
mod words;
