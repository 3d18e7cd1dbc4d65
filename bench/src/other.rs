//! What libhost.a is timed against: the second implementation; or, with the feature `before`, an
//! older libhost.a, whose names `run` has changed to begin with before_.

pub use timed::{check, decide, NAME, WHAT};

#[cfg(not(feature = "before"))]
mod timed {
    pub use second::reference::host::{check_quick as check, decide_quick as decide};

    pub const NAME: &str = "second";
    pub const WHAT: &str = "the second implementation";
}

#[cfg(feature = "before")]
mod timed {
    extern "C" {
        fn before_decide(model: *const u8, model_length: usize, table: *mut u8, table_length: usize, limit: u32)
            -> u64;
        fn before_check(model: *const u8, model_length: usize, table: *const u8, table_length: usize) -> u64;
    }

    pub const NAME: &str = "before";
    pub const WHAT: &str = "libhost.a as it was before";

    pub fn decide(model: &[u8], table: &mut [u8], limit: u32) -> u64 {
        unsafe { before_decide(model.as_ptr(), model.len(), table.as_mut_ptr(), table.len(), limit) }
    }

    pub fn check(model: &[u8], table: &[u8]) -> u64 {
        unsafe { before_check(model.as_ptr(), model.len(), table.as_ptr(), table.len()) }
    }
}
