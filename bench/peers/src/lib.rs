//! A data loader and an evaluator of terms in plain Rust. They do what the project's own crates do, without proofs and by std's
//! collections and Debian's crates, and are what the project's programs are measured against. `strong` is the loader once more, for speed.

pub mod desk;
pub mod document;
pub mod loader;
pub mod report;
pub mod script;
pub mod serve;
pub mod strong;
pub mod tables;
pub mod term;
pub mod value;
