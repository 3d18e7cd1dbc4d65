//! The C calls of the program under test.
//!
//! With the feature `host` these are the functions of libhost.a; a slice passes as pointer,
//! then length. Without it they are stand-ins that call this package itself, so that the
//! comparing program can be built and tried out.

use super::exports::Call;
use super::slices::{Input, Lent};
#[cfg(feature = "host")]
use super::slices::{Number, Slice};

/// True if the program under test is linked in.
pub const LINKED: bool = cfg!(feature = "host");

#[cfg(feature = "host")]
mod library {
    type Bytes = *const u8;
    type Words = *const i32;
    type Lent = *mut i32;

    extern "C" {
        pub fn decide(model: Bytes, model_length: usize, table: *mut u8, table_length: usize, limit: u32) -> u64;
        pub fn check(model: Bytes, model_length: usize, table: Bytes, table_length: usize) -> u64;
        pub fn qii_read_model(
            file: Bytes,
            file_length: usize,
            words: Lent,
            words_length: usize,
            value: *mut u64,
        ) -> u32;
        pub fn qii_ceiling(model: Words, model_length: usize, value: *mut u64) -> u32;
        pub fn qii_quote(model: Words, model_length: usize, words: *mut u64, bytes: *mut u64, ceiling: *mut u64)
            -> u32;
        pub fn qii_check(model: Words, model_length: usize, table: Words, table_length: usize) -> u32;
        pub fn qii_analyse(
            model: Words,
            model_length: usize,
            limit: u32,
            table: Lent,
            table_length: usize,
            work: Lent,
            work_length: usize,
            value: *mut u64,
        ) -> u32;
        pub fn qii_read_table(
            model: Words,
            model_length: usize,
            file: Bytes,
            file_length: usize,
            table: Lent,
            table_length: usize,
            value: *mut u64,
        ) -> u32;
        pub fn qii_write_table(
            model: Words,
            model_length: usize,
            table: Words,
            table_length: usize,
            file: *mut u8,
            file_length: usize,
            value: *mut u64,
        ) -> u32;
        pub fn qii_write_model(
            model: Words,
            model_length: usize,
            file: *mut u8,
            file_length: usize,
            value: *mut u64,
        ) -> u32;
        pub fn qii_desk(
            jobs: *mut u32,
            passes: *mut u32,
            model: Words,
            model_length: usize,
            limit: u32,
            table: Lent,
            table_length: usize,
            work: Lent,
            work_length: usize,
            value: *mut u64,
        ) -> u32;
    }
}

#[cfg(feature = "host")]
pub fn decide(model: &[u8], buffer: &mut [u8], limit: u32) -> u64 {
    // SAFETY: both pointers are valid for their lengths, and the two do not overlap.
    unsafe { library::decide(model.as_ptr(), model.len(), buffer.as_mut_ptr(), buffer.len(), limit) }
}

#[cfg(feature = "host")]
pub fn check(model: &[u8], table: &[u8]) -> u64 {
    // SAFETY: both pointers are valid for their lengths.
    unsafe { library::check(model.as_ptr(), model.len(), table.as_ptr(), table.len()) }
}

/// Any of the other calls. A slice that it does not take is empty, and its pointer is not passed.
#[cfg(feature = "host")]
pub fn answer(call: Call, input: &Input, lent: &mut Lent) -> u32 {
    let (model, model_len) = (input.model().as_ptr(), input.model().len());
    let (table, table_len) = (input.table().as_ptr(), input.table().len());
    let (file, file_len) = (input.file().as_ptr(), input.file().len());
    let (words, words_len) = lent_pointer(lent, Slice::Words);
    let (work, work_len) = lent_pointer(lent, Slice::Work);
    let (room, room_len) = lent_pointer(lent, Slice::FileRoom);
    let (value, _) = lent_pointer(lent, Slice::Value);
    let limit = input.limit;
    // SAFETY: every pointer is valid for its length, and no two that are lent overlap. A quote has three values.
    unsafe {
        match call {
            Call::ReadModel => library::qii_read_model(file, file_len, words, words_len, value),
            Call::Ceiling => library::qii_ceiling(model, model_len, value),
            Call::Check => library::qii_check(model, model_len, table, table_len),
            Call::Analyse => library::qii_analyse(model, model_len, limit, words, words_len, work, work_len, value),
            Call::ReadTable => library::qii_read_table(model, model_len, file, file_len, words, words_len, value),
            Call::WriteTable => library::qii_write_table(model, model_len, table, table_len, room, room_len, value),
            Call::Desk => {
                let [(jobs, _), (passes, _)] = [Slice::Jobs, Slice::Passes].map(|slice| lent_pointer(lent, slice));
                library::qii_desk(jobs, passes, model, model_len, limit, words, words_len, work, work_len, value)
            }
            Call::Quote => {
                let (quote, _) = lent_pointer(lent, Slice::Quote);
                library::qii_quote(model, model_len, quote, quote.add(1), quote.add(2))
            }
            Call::WriteModel => library::qii_write_model(model, model_len, room, room_len, value),
        }
    }
}

/// Where a slice is lent, and how long it is.
#[cfg(feature = "host")]
fn lent_pointer<T: Number>(lent: &mut Lent, slice: Slice) -> (*mut T, usize) {
    let numbers = lent.slice(slice);
    (numbers.as_mut_ptr(), numbers.len())
}

#[cfg(not(feature = "host"))]
pub fn decide(model: &[u8], buffer: &mut [u8], limit: u32) -> u64 {
    crate::reference::host::decide(model, buffer, limit)
}

#[cfg(not(feature = "host"))]
pub fn check(model: &[u8], table: &[u8]) -> u64 {
    crate::reference::host::check(model, table)
}

#[cfg(not(feature = "host"))]
pub fn answer(call: Call, input: &Input, lent: &mut Lent) -> u32 {
    crate::c_calls::exports::answer(call, input, lent)
}
