//! The wall step as it was before document 02's T-06: of all delays to the wall, without asking whether the
//! other variables can live with them.
//!
//! No call uses it. It is kept to count whose answers the request changed, and to test that a table accepted
//! before stays accepted.

use crate::reference::analysis::{search, Answer};
use crate::reference::checker::ask;
use crate::reference::delays::Delays;
use crate::reference::model::{ordered_inside, Plant, MAX_BOX};
use crate::reference::steps::wall_step_within;
use crate::reference::tables::{forbidden_touched, forbidden_touched_quick, pass_by, well_formed};
use crate::reference::Refusal;

pub fn wall_step(
    n: usize,
    part: &[i32],
    rates: &[i32],
    invariant: &[i32],
    d: usize,
    b: i32,
    out: &mut [i32; MAX_BOX],
) -> bool {
    wall_step_within(n, part, rates, invariant, (d, b), Delays::ALL, out)
}

pub fn pass(plant: &Plant, old: &[i32], new: &mut [i32]) -> bool {
    pass_by(plant, old, new, |_, _| Some(Delays::ALL))
}

/// The analysis of before.
pub fn run(plant: &Plant, limit: u32, table: &mut [i32], work: &mut [i32]) -> (Answer, u32) {
    search(plant, limit, table, work, forbidden_touched_quick, pass)
}

/// Questions 32, 33 and 34 of before, of exactly the table's words.
pub fn ask_table(plant: &Plant, table: &[i32]) -> Result<(), Refusal> {
    if !well_formed(plant, table) {
        return Err(32);
    }
    ask(plant, table, forbidden_touched, pass)
}

/// Every present piece of the one table lies inside the same piece of the other, which is present too.
pub fn lies_inside(plant: &Plant, inner: &[i32], outer: &[i32]) -> bool {
    let words = plant.sizes.face_words();
    let mut pieces = inner.chunks_exact(words).zip(outer.chunks_exact(words));
    pieces.all(|(inner, outer)| inner[0] == 0 || (outer[0] == 1 && ordered_inside(&inner[1..], &outer[1..])))
}
