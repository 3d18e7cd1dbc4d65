//! The host's two calls, on bytes.

use crate::reference::analysis::{run, run_quick, Answer};
use crate::reference::checker::{ask_fixpoint, ask_fixpoint_quick};
use crate::reference::files::{model_of_file, parse_table, put, table_file};
use crate::reference::model::{Plant, HEAD_WORDS, MAX_FORBIDDEN, MAX_LOCATIONS, MAX_SWITCHES};
use crate::reference::Refusal;

/// Words of the largest model: the host's own buffer is always long enough.
pub const MOST_MODEL_WORDS: usize = HEAD_WORDS + MAX_LOCATIONS * (37 + 2) + MAX_SWITCHES * 30 + MAX_FORBIDDEN * 13;

type Run = fn(&Plant, u32, &mut [i32], &mut [i32]) -> (Answer, u32);
type Ask = fn(&Plant, &[i32]) -> Result<(), Refusal>;

/// Decide: code × 2^32 + k. Writes the table file into the buffer, the rest of which is
/// unchanged; a refusal changes nothing and has k 0.
pub fn decide(model: &[u8], buffer: &mut [u8], limit: u32) -> u64 {
    decided(model, buffer, limit, run)
}

/// The same, with the quick touching: the speed baseline.
pub fn decide_quick(model: &[u8], buffer: &mut [u8], limit: u32) -> u64 {
    decided(model, buffer, limit, run_quick)
}

fn decided(model: &[u8], buffer: &mut [u8], limit: u32, run: Run) -> u64 {
    match try_decide(model, buffer, limit, run) {
        Ok((answer, k)) => (answer.code() as u64) << 32 | k as u64,
        Err(refusal) => (refusal as u64) << 32,
    }
}

fn try_decide(model: &[u8], buffer: &mut [u8], limit: u32, run: Run) -> Result<(Answer, u32), Refusal> {
    let model = model_of_file(model)?;
    let plant = model.plant();
    if buffer.len() < plant.table_file_room() {
        return Err(39);
    }
    let mut table = vec![0; plant.table_words()];
    let mut work = table.clone();
    let answer = run(&plant, limit, &mut table, &mut work);
    put(&table_file(&plant, &table), buffer);
    Ok(answer)
}

/// Check: 100, or the refusal.
pub fn check(model: &[u8], table: &[u8]) -> u64 {
    checked(model, table, ask_fixpoint)
}

/// The same, with the quick touching: the speed baseline.
pub fn check_quick(model: &[u8], table: &[u8]) -> u64 {
    checked(model, table, ask_fixpoint_quick)
}

fn checked(model: &[u8], table: &[u8], ask: Ask) -> u64 {
    match try_check(model, table, ask) {
        Ok(()) => 100,
        Err(refusal) => refusal as u64,
    }
}

fn try_check(model: &[u8], table: &[u8], ask: Ask) -> Result<(), Refusal> {
    let model = model_of_file(model)?;
    let plant = model.plant();
    let table = parse_table(&plant, table)?;
    ask(&plant, &table)
}
