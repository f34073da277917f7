//! The library measured against plain Rust: against `plain`, which goes place by place and bit by bit, and against versions written to be
//! fast. In one run, on the same input, all built for release.

pub mod agreement;
pub mod cases;
pub mod fast;
pub mod growth;
pub mod memory;
pub mod operations;
pub mod plot;
pub mod recordings;
pub mod tables;
pub mod timing;
