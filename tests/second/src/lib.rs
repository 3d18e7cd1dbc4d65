//! A second implementation of the plant checker.
//!
//! Written from documents 01 and 02 and their readings alone, to be compared with the
//! program under test. It uses the standard library only.
//!
//! * `reference` – the second implementation: what the documents say, in functions
//! * `inputs`    – what the comparison is fed with: random models and tables, damage to them, examples
//! * `c_calls`   – the C calls beside decide and check, answered here or by libhost.a
//! * `held`      – what is held to what: the comparison, what else is promised of the tested calls, what came up
//! * `fixed`     – the comparison's fixed cases

pub mod c_calls;
pub mod fixed;
pub mod held;
pub mod inputs;
pub mod reference;
