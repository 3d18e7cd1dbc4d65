//! The checker: accepts exactly if the model's questions, 20 and 32 to 34 are all yes.

use crate::reference::model::Plant;
use crate::reference::tables::{forbidden_touched, forbidden_touched_quick, pass, well_formed, Pass};
use crate::reference::Refusal;

pub fn checker(model: &[i32], list: &[i32]) -> Result<(), Refusal> {
    let plant = Plant::from_words(model)?;
    if list.len() < plant.table_words() {
        return Err(20);
    }
    ask_table(&plant, &list[..plant.table_words()])
}

/// Questions 32, 33 and 34 of exactly the table's words.
pub fn ask_table(plant: &Plant, table: &[i32]) -> Result<(), Refusal> {
    if !well_formed(plant, table) {
        return Err(32);
    }
    ask_fixpoint(plant, table)
}

/// Questions 33 and 34 of a table that has passed 32.
pub fn ask_fixpoint(plant: &Plant, table: &[i32]) -> Result<(), Refusal> {
    ask(plant, table, forbidden_touched, pass)
}

/// The same, with the quick touching: the speed baseline.
pub fn ask_fixpoint_quick(plant: &Plant, table: &[i32]) -> Result<(), Refusal> {
    ask(plant, table, forbidden_touched_quick, pass)
}

pub(crate) fn ask(
    plant: &Plant,
    table: &[i32],
    touched: fn(&Plant, &[i32]) -> bool,
    pass: Pass,
) -> Result<(), Refusal> {
    let mut next = vec![0; table.len()];
    if pass(plant, table, &mut next) {
        return Err(33);
    }
    if touched(plant, table) {
        return Err(34);
    }
    Ok(())
}
