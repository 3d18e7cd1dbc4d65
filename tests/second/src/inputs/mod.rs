//! What the comparison is fed with.
//!
//! * `random`    – a source of random numbers with a fixed start
//! * `draft`     – a model in the making, and grids of cells
//! * `generate`  – random models and tables; `pumps` random pump plants
//! * `starts`    – start boxes that cross the wall: their kinds, trimmed to their start parts, taken whole
//! * `ranges`    – reset ranges: their kinds, other ranges, random models that hang on them
//! * `narrowing` – narrower plants at random, and plants that break one of the conditions
//! * `refining`  – plants with further cuts at random, and plants that are not the first with further cuts
//! * `damage`    – damaged inputs
//! * `examples`  – document 01's plant P, source 000's examples and more; `samples` names those in `models`

pub mod damage;
pub mod draft;
pub mod examples;
pub mod generate;
pub mod narrowing;
pub mod pumps;
pub mod random;
pub mod ranges;
pub mod refining;
pub mod samples;
pub mod starts;
