//! The C calls.
//!
//! * `exports`   – those beside decide and check: which they are, what each takes, and how this package answers
//! * `slices`    – what a call is handed, as lists of slices: read, lent, left, and their lengths
//! * `host_ffi`  – all of them as libhost.a answers (feature `host`), or a stand-in

pub mod exports;
pub mod host_ffi;
pub mod slices;
