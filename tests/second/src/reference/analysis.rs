//! The analysis: passes from table 0 until unknown, safe or unfinished.

use crate::reference::model::Plant;
use crate::reference::tables::{forbidden_touched, forbidden_touched_quick, pass, Pass};
use crate::reference::Refusal;

#[derive(Clone, Copy, Debug, PartialEq, Eq)]
pub enum Answer {
    Safe,
    Unknown,
    Unfinished,
}

impl Answer {
    /// The host's code.
    pub fn code(self) -> u32 {
        match self {
            Answer::Safe => 100,
            Answer::Unknown => 101,
            Answer::Unfinished => 102,
        }
    }
    pub fn word(self) -> &'static str {
        match self {
            Answer::Safe => "safe",
            Answer::Unknown => "unknown",
            Answer::Unfinished => "unfinished",
        }
    }
}

/// The analysis of model words. Answered: `table` begins with table k and keeps its later
/// words, `work` is all zero. Refused: neither is changed.
pub fn analysis(model: &[i32], limit: u32, table: &mut [i32], work: &mut [i32]) -> Result<(Answer, u32), Refusal> {
    let plant = Plant::from_words(model)?;
    ask_buffers(&plant, table, work)?;
    Ok(run(&plant, limit, table, work))
}

/// Questions 20 and 21.
pub fn ask_buffers(plant: &Plant, table: &[i32], work: &[i32]) -> Result<(), Refusal> {
    let size = plant.table_words();
    if table.len() < size {
        return Err(20);
    }
    if work.len() < size {
        return Err(21);
    }
    Ok(())
}

/// The passes, with the touching that tries every delay.
pub fn run(plant: &Plant, limit: u32, table: &mut [i32], work: &mut [i32]) -> (Answer, u32) {
    search(plant, limit, table, work, forbidden_touched, pass)
}

/// The passes, with the quick touching: the speed baseline.
pub fn run_quick(plant: &Plant, limit: u32, table: &mut [i32], work: &mut [i32]) -> (Answer, u32) {
    search(plant, limit, table, work, forbidden_touched_quick, pass)
}

pub(crate) fn search(
    plant: &Plant,
    limit: u32,
    table: &mut [i32],
    work: &mut [i32],
    touched: fn(&Plant, &[i32]) -> bool,
    pass: Pass,
) -> (Answer, u32) {
    let size = plant.table_words();
    let mut k = 0u32;
    let answer = {
        // The two buffers take turns; `in_work` tells where table k stands.
        let (mut now, mut next) = (&mut table[..size], &mut work[..size]);
        let mut in_work = false;
        now.fill(0);
        let answer = loop {
            if touched(plant, now) {
                break Answer::Unknown;
            }
            if !pass(plant, now, next) {
                break Answer::Safe;
            }
            if k == limit {
                break Answer::Unfinished;
            }
            std::mem::swap(&mut now, &mut next);
            in_work = !in_work;
            k += 1;
        };
        if in_work {
            next.copy_from_slice(now);
        }
        answer
    };
    work.fill(0);
    (answer, k)
}
