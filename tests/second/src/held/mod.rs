//! What is held to what.
//!
//! * `compare`   – compares two implementations of the C calls, `lending` those of `exports`
//! * `trimming`  – a model and the same one with its start boxes trimmed
//! * `editions`  – a model in both editions, and with narrower ranges
//! * `changes`   – counts what T-06 changes, and holds what it must not
//! * `quoting`   – answers held to their quotes
//! * `writing`   – written model files held to their words
//! * `pairing`   – a second plant of a pair held to the first; a narrower plant
//! * `dividing`  – a plant with further cuts
//! * `simulate`  – random runs, from the section "Runs" alone
//! * `coverage`  – counts what came up

pub mod changes;
pub mod compare;
pub mod coverage;
pub mod dividing;
pub mod editions;
pub mod lending;
pub mod pairing;
pub mod quoting;
pub mod simulate;
pub mod trimming;
pub mod writing;
