//! Tables: question 32, one pass, the search for a touched forbidden box.

use crate::reference::delays::{delays_inside, touches, touches_quick, Delays};
use crate::reference::model::{ordered_inside, Cut, Location, Piece, Plant, MAX_BOX};
use crate::reference::steps::{join, switch_step, wall_step_within};

/// Question 32: flags 0 or 1, absent pieces zero, present ones ordered, inside the invariant, on their
/// wall and on their side; the second piece absent on the cut variable's own walls. `table` has exactly
/// the table's words.
pub fn well_formed(plant: &Plant, table: &[i32]) -> bool {
    let sizes = plant.sizes;
    let stands = |piece: Piece, words: &[i32]| match words[0] {
        0 => words[1..].iter().all(|&w| w == 0),
        1 => plant.widest(piece).is_some_and(|widest| ordered_inside(&words[1..], &widest)),
        _ => false,
    };
    (0..sizes.locations).all(|location| {
        (0..sizes.faces()).all(|face| {
            let pieces = table[plant.face_places(location, face)].chunks_exact(sizes.face_words());
            pieces.enumerate().all(|(piece, words)| stands(Piece { location, face, piece }, words))
        })
    })
}

/// Joins a step's result on the wall of d to all pieces of its face: it is cut to each piece first, and
/// an empty cut joins nothing. True if one of them changed.
#[inline(always)]
fn join_to_pieces(n: usize, d: usize, cut: Option<Cut>, reached: &[i32; MAX_BOX], pieces: &mut [i32]) -> bool {
    match cut {
        None => join(&mut pieces[..1 + 2 * n], &reached[..2 * n]),
        Some(cut) => join_cut(n, d, cut, reached, pieces),
    }
}

/// The same of a face of a location that is cut.
#[inline(never)]
fn join_cut(n: usize, d: usize, cut: Cut, reached: &[i32; MAX_BOX], pieces: &mut [i32]) -> bool {
    let (first, second) = pieces.split_at_mut(1 + 2 * n);
    if cut.variable == d {
        return join(first, &reached[..2 * n]);
    }
    let (low, high) = (2 * cut.variable, 2 * cut.variable + 1);
    let mut changed = false;
    if reached[low] <= cut.value {
        let mut below = *reached;
        below[high] = below[high].min(cut.value);
        changed |= join(first, &below[..2 * n]);
    }
    if reached[high] >= cut.value {
        let mut above = *reached;
        above[low] = above[low].max(cut.value);
        changed |= join(second, &above[..2 * n]);
    }
    changed
}

/// The delays that all variables of a part can live with.
#[inline]
pub(crate) fn inside(part: &[i32], location: &Location) -> Option<Delays> {
    delays_inside(part, location.rates, location.invariant)
}

/// Joins to the location's new pieces every wall step from one part, of those delays that `allowed` gives.
#[inline]
pub(crate) fn wall_steps_from(
    n: usize,
    part: &[i32],
    location: &Location,
    allowed: impl Fn(&[i32], &Location) -> Option<Delays>,
    pieces: &mut [i32],
) -> bool {
    let Some(allowed) = allowed(part, location) else {
        return false;
    };
    let words = (1 + 2 * n) * if location.cut.is_some() { 2 } else { 1 };
    let mut changed = false;
    let mut reached = [0i32; MAX_BOX];
    for face in 0..2 * n {
        let wall = (face / 2, location.invariant[face]);
        if wall_step_within(n, part, location.rates, location.invariant, wall, allowed, &mut reached) {
            let pieces = &mut pieces[face * words..][..words];
            changed |= join_to_pieces(n, face / 2, location.cut, &reached, pieces);
        }
    }
    changed
}

/// A pass: the plant, a table, what it becomes, and whether that is another one.
pub type Pass = fn(&Plant, &[i32], &mut [i32]) -> bool;

/// One pass: `new` becomes the table after `old`; true if they differ.
/// Every step is taken from the table before the pass. Both have the table's words.
pub fn pass(plant: &Plant, old: &[i32], new: &mut [i32]) -> bool {
    pass_by(plant, old, new, inside)
}

/// The pass with the wall steps of those delays that `allowed` gives.
#[inline(always)]
pub(crate) fn pass_by(
    plant: &Plant,
    old: &[i32],
    new: &mut [i32],
    allowed: impl Fn(&[i32], &Location) -> Option<Delays> + Copy,
) -> bool {
    let sizes = plant.sizes;
    let n = sizes.n;
    let face_words = sizes.face_words();
    new.copy_from_slice(old);
    let mut changed = false;
    for l in 0..sizes.locations {
        let location = plant.location(l);
        let places = plant.location_places(l);
        let pieces = &mut new[places.clone()];
        if let Some(start) = location.start_part() {
            changed |= wall_steps_from(n, &start, &location, allowed, pieces);
        }
        for words in old[places].chunks_exact(face_words) {
            if words[0] == 1 {
                changed |= wall_steps_from(n, &words[1..], &location, allowed, pieces);
            }
        }
    }
    changed | switch_steps(plant, old, new)
}

/// Joins every switch step from the table before the pass; true if a piece changed.
fn switch_steps(plant: &Plant, old: &[i32], new: &mut [i32]) -> bool {
    let (n, face_words) = (plant.sizes.n, plant.sizes.face_words());
    let mut changed = false;
    let mut landed = [0i32; MAX_BOX];
    for s in 0..plant.sizes.switches {
        let switch = plant.switch(s);
        let from = plant.face_places(switch.source, 2 * switch.d + switch.source_side);
        for words in old[from].chunks_exact(face_words) {
            if words[0] == 0 {
                continue;
            }
            let target = plant.location(switch.target);
            if switch_step(n, &words[1..], &switch, target.invariant, &mut landed) {
                let pieces = &mut new[plant.face_places(switch.target, 2 * switch.d + switch.target_side)];
                changed |= join_to_pieces(n, switch.d, target.cut, &landed, pieces);
            }
        }
    }
    changed
}

type Touch = fn(usize, &[i32], &[i32], &[i32], &[i32]) -> bool;

fn any_part_touches(plant: &Plant, table: &[i32], touch: Touch) -> bool {
    let sizes = plant.sizes;
    let n = sizes.n;
    (0..sizes.forbidden).any(|f| {
        let forbidden = plant.forbidden(f);
        let location = plant.location(forbidden.location);
        let hit = |part: &[i32]| touch(n, part, location.rates, location.invariant, forbidden.bounds);
        let mut pieces = table[plant.location_places(forbidden.location)].chunks_exact(sizes.face_words());
        location.start_part().is_some_and(|start| hit(&start)) || pieces.any(|words| words[0] == 1 && hit(&words[1..]))
    })
}

/// Some part (start part, present piece) touches a forbidden box of its location.
pub fn forbidden_touched(plant: &Plant, table: &[i32]) -> bool {
    any_part_touches(plant, table, touches)
}

/// The same, with the quick touching.
pub fn forbidden_touched_quick(plant: &Plant, table: &[i32]) -> bool {
    any_part_touches(plant, table, touches_quick)
}
