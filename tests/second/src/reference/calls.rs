//! Every public call as a function from values to values: the number(s) that the call
//! gives, and all memory that was lent to it as it stands after the call.

use crate::reference::analysis::Answer;
use crate::reference::desk::Desk;
use crate::reference::quote::Quote;
use crate::reference::Refusal;

/// Read a model: how many words; the word buffer.
pub fn read_model(file: &[u8], mut buffer: Vec<i32>) -> (Result<usize, Refusal>, Vec<i32>) {
    let outcome = crate::reference::files::read_model(file, &mut buffer);
    (outcome, buffer)
}

/// Write a model file: how many bytes; the byte buffer.
pub fn write_model(model: &[i32], mut buffer: Vec<u8>) -> (Result<usize, Refusal>, Vec<u8>) {
    let outcome = crate::reference::files::write_model(model, &mut buffer);
    (outcome, buffer)
}

/// Read a table file: how many words; the word buffer.
pub fn read_table(model: &[i32], file: &[u8], mut buffer: Vec<i32>) -> (Result<usize, Refusal>, Vec<i32>) {
    let outcome = crate::reference::files::read_table(model, file, &mut buffer);
    (outcome, buffer)
}

/// Write a table file: how many bytes; the byte buffer.
pub fn write_table(model: &[i32], table: &[i32], mut buffer: Vec<u8>) -> (Result<usize, Refusal>, Vec<u8>) {
    let outcome = crate::reference::files::write_table(model, table, &mut buffer);
    (outcome, buffer)
}

/// Ceiling.
pub fn ceiling(model: &[i32]) -> Result<u64, Refusal> {
    crate::reference::ceiling::ceiling(model)
}

/// Quote.
pub fn quote(model: &[i32]) -> Result<Quote, Refusal> {
    crate::reference::quote::quote(model)
}

/// Checker.
pub fn checker(model: &[i32], table: &[i32]) -> Result<(), Refusal> {
    crate::reference::checker::checker(model, table)
}

/// The buffers after an analysis.
#[derive(Clone, Debug, PartialEq, Eq)]
pub struct Buffers {
    pub table: Vec<i32>,
    pub work: Vec<i32>,
}

/// Analysis: answer and k; table buffer and work buffer.
pub fn analysis(model: &[i32], limit: u32, mut lent: Buffers) -> (Result<(Answer, u32), Refusal>, Buffers) {
    let outcome = crate::reference::analysis::analysis(model, limit, &mut lent.table, &mut lent.work);
    (outcome, lent)
}

/// Desk call: answer and k; the desk; table buffer and work buffer.
pub fn desk(
    mut desk: Desk,
    model: &[i32],
    limit: u32,
    mut lent: Buffers,
) -> (Result<(Answer, u32), Refusal>, Desk, Buffers) {
    let outcome = crate::reference::desk::desk_call(&mut desk, model, limit, &mut lent.table, &mut lent.work);
    (outcome, desk, lent)
}

/// Decide: the number; the byte buffer.
pub fn decide(model: &[u8], mut buffer: Vec<u8>, limit: u32) -> (u64, Vec<u8>) {
    let number = crate::reference::host::decide(model, &mut buffer, limit);
    (number, buffer)
}

/// Host check: the number.
pub fn check(model: &[u8], table: &[u8]) -> u64 {
    crate::reference::host::check(model, table)
}
