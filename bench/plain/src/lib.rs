//! A second model of the chip in plain Rust, written from `docs/` alone.
//! Nothing here is proved: it is there to be compared with the proved model,
//! in answers (`bench/compare`) and in speed (`bench/run`).

pub mod array;
pub mod chip;
pub mod script;
