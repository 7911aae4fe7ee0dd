//! What the proved library is timed against: plain Rust that does the same
//! tests in the same order and gives the same answers.

pub mod clock;
pub mod plain;
