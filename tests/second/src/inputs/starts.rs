//! Start boxes that cross the wall (document 02, T-02): how they lie, the same model with its start boxes
//! trimmed to their start parts, and what would come of start boxes taken whole.

use crate::inputs::generate::close;
use crate::reference::delays::touches;
use crate::reference::model::{ordered_inside, Location, Plant, LEVEL};
use crate::reference::tables::{forbidden_touched, inside, wall_steps_from};

/// How the start boxes of a model lie; each must come up in a comparison.
pub const START_KINDS: [&str; 13] = [
    "inside the invariant",
    "sticks out on one side",
    "sticks out on both sides",
    "only meets the wall",
    "behind a wall of one variable",
    "behind walls of several variables",
    "holds the whole invariant, and more on every side",
    "outside with an end at -1,000,000",
    "outside with an end at 1,000,000",
    "crosses the wall of a location that is cut",
    "all inside",
    "behind walls alone: flag 1, no start part at all",
    "some behind walls, some not",
];

/// How one variable of a start box lies to its invariant.
struct Lying {
    low_out: bool,
    high_out: bool,
    behind: bool,
    /// Of a box that sticks out only the wall itself lies inside.
    meets: bool,
}

fn lying(location: &Location) -> Vec<Lying> {
    let ranges = location.start.chunks_exact(2).zip(location.invariant.chunks_exact(2));
    let of_one = |(start, wall): (&[i32], &[i32])| {
        let (low_out, high_out) = (start[0] < wall[0], wall[1] < start[1]);
        let behind = start[1] < wall[0] || wall[1] < start[0];
        let meets = (low_out && start[1] == wall[0]) || (high_out && start[0] == wall[1]);
        Lying { low_out, high_out, behind, meets }
    };
    ranges.map(of_one).collect()
}

/// The location has a start box that sticks out of its invariant.
pub fn crosses(location: &Location) -> bool {
    location.started && !ordered_inside(location.start, location.invariant)
}

/// Some location has such a start box.
pub fn any_crosses(plant: &Plant) -> bool {
    (0..plant.sizes.locations).any(|l| crosses(&plant.location(l)))
}

/// The kinds that a location's start box is of: the first ten.
fn kinds_of_one(location: &Location) -> [bool; 10] {
    if !location.started {
        return [false; 10];
    }
    let variables = lying(location);
    let behind = variables.iter().filter(|lying| lying.behind).count();
    let some = |is: fn(&Lying) -> bool| behind == 0 && variables.iter().any(is);
    let end_at = |level: i32, end: usize| {
        let ranges = location.start.chunks_exact(2).zip(location.invariant.chunks_exact(2));
        ranges.into_iter().any(|(start, wall)| start[end] == level && wall[end] != level)
    };
    [
        !crosses(location),
        some(|lying| lying.low_out != lying.high_out && !lying.meets),
        some(|lying| lying.low_out && lying.high_out),
        some(|lying| lying.meets),
        behind == 1,
        behind > 1,
        variables.iter().all(|lying| lying.low_out && lying.high_out),
        end_at(-LEVEL, 0),
        end_at(LEVEL, 1),
        location.cut.is_some() && crosses(location) && behind == 0,
    ]
}

/// The kinds of `START_KINDS` that a model is of.
pub fn start_kinds(plant: &Plant) -> Vec<&'static str> {
    let locations: Vec<Location> = (0..plant.sizes.locations).map(|l| plant.location(l)).collect();
    let mut is = [false; START_KINDS.len()];
    for location in &locations {
        let kinds = kinds_of_one(location);
        (0..kinds.len()).for_each(|kind| is[kind] |= kinds[kind]);
    }
    let boxes = locations.iter().filter(|location| location.started).count();
    let parts = locations.iter().filter(|location| location.start_part().is_some()).count();
    is[10] = boxes > 0 && !locations.iter().any(crosses);
    is[11] = boxes > 0 && parts == 0;
    is[12] = 0 < parts && parts < boxes;
    START_KINDS.into_iter().zip(is).filter(|(_, is)| *is).map(|(kind, _)| kind).collect()
}

/// The model's words with every start box replaced by its start part, and by flag 0 and zeros where there
/// is none. Every answer must stay.
pub fn trimmed(plant: &Plant) -> Vec<i32> {
    let (sizes, two_n) = (plant.sizes, 2 * plant.sizes.n);
    let mut words = plant.words().to_vec();
    for l in 0..sizes.locations {
        let start = &mut words[sizes.location_at(l) + 2 * two_n..sizes.location_at(l + 1)];
        start.fill(0);
        if let Some(part) = plant.location(l).start_part() {
            start[0] = 1;
            start[1..].copy_from_slice(&part[..two_n]);
        }
    }
    words
}

/// The table at rest if start boxes were taken whole, as far as `most` passes lead, and whether it is at rest.
///
/// A start box gives the same wall steps in every pass, and those from its start part lie inside them. So
/// the table is the one that grows from all these steps.
pub fn table_of_whole_boxes(plant: &Plant, most: u32) -> (Vec<i32>, bool) {
    let mut table = vec![0; plant.table_words()];
    for l in 0..plant.sizes.locations {
        let location = plant.location(l);
        if location.started {
            let pieces = &mut table[plant.location_places(l)];
            wall_steps_from(plant.sizes.n, location.start, &location, inside, pieces);
        }
    }
    let at_rest = close(plant, &mut table, most);
    (table, at_rest)
}

/// A forbidden box would be touched if start boxes were taken whole: by one of them, or by a part of the
/// table that grows from them.
pub fn touched_by_whole_boxes(plant: &Plant, table: &[i32]) -> bool {
    let by_a_box = |f: usize| {
        let forbidden = plant.forbidden(f);
        whole_box_touches(plant, forbidden.location, forbidden.bounds)
    };
    (0..plant.sizes.forbidden).any(by_a_box) || forbidden_touched(plant, table)
}

/// The start box of location l, taken whole, touches the box.
pub fn whole_box_touches(plant: &Plant, l: usize, bounds: &[i32]) -> bool {
    let location = plant.location(l);
    location.started && touches(plant.sizes.n, location.start, location.rates, location.invariant, bounds)
}
