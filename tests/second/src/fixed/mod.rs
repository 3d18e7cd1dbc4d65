//! The comparison's fixed cases.
//!
//! * `documents` – decide and check: the documents', source 000's examples, the sample models, and sweeps over every
//!   length, every bit and every word of small files
//! * `calls`     – those of the calls beside decide and check
//! * `starts`    – start boxes that cross the wall
//! * `delays`    – delays that all variables can live with
//! * `cuts`      – locations that are cut
//! * `resets`    – editions and reset ranges
//! * `quotes`    – quotes
//! * `written`   – model files that are written
//! * `narrower`  – narrower plants

pub mod calls;
pub mod cuts;
pub mod delays;
pub mod documents;
pub mod narrower;
pub mod quotes;
pub mod resets;
pub mod starts;
pub mod written;
