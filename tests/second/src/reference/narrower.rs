//! The relation of document 02's T-13: when the second of two models is a narrower plant than the first. Written from
//! the request's sentences, one function each; nothing here asks what either model is answered.
//!
//! Both have passed their questions. Their editions need not agree, nor their numbers of switches and forbidden boxes:
//! several of the second's may rest on one of the first's.

use crate::reference::model::{ordered_inside, Forbidden, Plant, Switch};

/// The conditions, in the request's order.
#[derive(Clone, Copy, Debug, PartialEq, Eq, PartialOrd, Ord)]
pub enum Condition {
    Variables,
    Locations,
    Invariants,
    Cuts,
    Rates,
    Starts,
    Switches,
    Forbidden,
}

/// Is the second model a narrower plant than the first?
pub fn narrower(first: &Plant, second: &Plant) -> bool {
    broken(first, second).is_empty()
}

/// All conditions that do not hold. Models of another n or L have no locations to compare, and nothing more is asked.
pub fn broken(first: &Plant, second: &Plant) -> Vec<Condition> {
    let failing = |asked: &[(Condition, bool)]| -> Vec<Condition> {
        asked.iter().filter(|(_, holds)| !holds).map(|(condition, _)| *condition).collect()
    };
    let sizes = failing(&[
        (Condition::Variables, first.sizes.n == second.sizes.n),
        (Condition::Locations, first.sizes.locations == second.sizes.locations),
    ]);
    if !sizes.is_empty() {
        return sizes;
    }
    failing(&[
        (Condition::Invariants, equal_invariants(first, second)),
        (Condition::Cuts, equal_cuts(first, second)),
        (Condition::Rates, rates_inside(first, second)),
        (Condition::Starts, starts_held(first, second)),
        (Condition::Switches, switches_held(first, second)),
        (Condition::Forbidden, forbidden_held(first, second)),
    ])
}

/// "Let two models have equal .. invariants ..".
fn equal_invariants(first: &Plant, second: &Plant) -> bool {
    (0..first.sizes.locations).all(|l| first.location(l).invariant == second.location(l).invariant)
}

/// ".. and cuts."
fn equal_cuts(first: &Plant, second: &Plant) -> bool {
    (0..first.sizes.locations).all(|l| first.cut(l) == second.cut(l))
}

/// "In the second every rate box lies inside the first's for that location."
fn rates_inside(first: &Plant, second: &Plant) -> bool {
    (0..first.sizes.locations).all(|l| ordered_inside(second.location(l).rates, first.location(l).rates))
}

/// "Where the second has a start part in use, the first has one in that location that holds it."
fn starts_held(first: &Plant, second: &Plant) -> bool {
    let ends = 2 * first.sizes.n;
    (0..first.sizes.locations).all(|l| match (first.location(l).start_part(), second.location(l).start_part()) {
        (_, None) => true,
        (None, Some(_)) => false,
        (Some(first), Some(second)) => ordered_inside(&second[..ends], &first[..ends]),
    })
}

/// "Each of its switches has one in the first with equal locations, d, sides and mask whose guard and reset boxes hold
/// its own."
fn switches_held(first: &Plant, second: &Plant) -> bool {
    let in_first = |own: &Switch| (0..first.sizes.switches).any(|s| switch_holds(&first.switch(s), own));
    (0..second.sizes.switches).all(|s| in_first(&second.switch(s)))
}

fn switch_holds(first: &Switch, second: &Switch) -> bool {
    (first.source, first.target) == (second.source, second.target)
        && first.d == second.d
        && (first.source_side, first.target_side) == (second.source_side, second.target_side)
        && first.mask == second.mask
        && ordered_inside(second.guard, first.guard)
        && ordered_inside(second.reset, first.reset)
}

/// "Each of its forbidden boxes lies inside one of the first's in that location."
fn forbidden_held(first: &Plant, second: &Plant) -> bool {
    let holds =
        |held: &Forbidden, own: &Forbidden| held.location == own.location && ordered_inside(own.bounds, held.bounds);
    let in_first = |own: &Forbidden| (0..first.sizes.forbidden).any(|f| holds(&first.forbidden(f), own));
    (0..second.sizes.forbidden).all(|f| in_first(&second.forbidden(f)))
}
