//! What documents 01 and 02 say, in functions.
//!
//! * `model`     – sizes and places, model words, editions, questions 2 to 5, 43, 11 to 19 and 46; start parts,
//!   pieces of faces
//! * `fraction`  – exact fractions
//! * `delays`    – delays to a wall, those that all variables can live with; touching by one delay for all variables
//! * `steps`     – wall step, switch step, join
//! * `tables`    – question 32, the pass
//! * `ceiling`, `quote`, `checker`, `analysis`, `desk`, `files`, `host`, `listing`
//! * `calls`     – every public call as a function from values to values
//! * `narrower`  – when a second model is a narrower plant than a first
//! * `finer`     – when a second model is a first with further cuts, and a table of the first divided
//! * `plain`     – a slow, literal pass and touching, to check the quick ones
//! * `before`    – the wall step without the cut of T-06, with its pass, analysis and checker, to count and to test

pub mod analysis;
pub mod before;
pub mod calls;
pub mod ceiling;
pub mod checker;
pub mod delays;
pub mod desk;
pub mod files;
pub mod finer;
pub mod fraction;
pub mod host;
pub mod listing;
pub mod model;
pub mod narrower;
pub mod plain;
pub mod quote;
pub mod steps;
pub mod tables;

/// A refusal: the number of the first question that was answered no.
pub type Refusal = u32;
