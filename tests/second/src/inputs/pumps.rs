//! Random pump plants (document 02, T-06): one variable that may stand still or is slow, and others that run
//! against their walls and end its delays.

use crate::inputs::draft::{Draft, LocationDraft};
use crate::inputs::generate::{
    close, close_by, find_box, random_edition, random_switch, touched_in, with_found_box, with_starts_and_cuts,
    HELP_PASSES,
};
use crate::inputs::random::Random;
use crate::reference::before;
use crate::reference::model::Plant;

/// A random pump plant with one forbidden box: one that a part touches with the steps of before and none touches
/// with those of now, if such a box is found soon.
pub fn pump_model(random: &mut Random) -> Draft {
    let draw = |random: &mut Random| {
        let draft = random_pumps(random);
        with_starts_and_cuts(random, draft)
    };
    with_found_box(random, draw, box_of_before)
}

/// Locations with the same walls, or with walls of their own, and switches between them.
fn random_pumps(random: &mut Random) -> Draft {
    let n = random.pick(&[2, 2, 2, 3, 3, 3, 4, 5, 6]);
    let width = random.pick(&[3, 10, 10, 10, 40, 1_000]);
    let mut draft = Draft { n, edition: random_edition(random), ..Draft::default() };
    let mut walls = random_walls(random, n, width);
    for _ in 0..1 + random.below(4) {
        if random.chance(1, 3) {
            walls = random_walls(random, n, width);
        }
        let rates = random_flows(random, n);
        draft.locations.push(LocationDraft { invariant: walls.clone(), rates, start: None });
    }
    for _ in 0..random.below(2 * draft.locations.len() + 1) {
        let switch = random_switch(random, &draft);
        draft.switches.push(switch);
    }
    draft
}

fn random_walls(random: &mut Random, n: usize, width: i64) -> Vec<i32> {
    (0..n)
        .flat_map(|_| {
            let low = random.range(-5, 5) as i32;
            [low, low + random.range(1, width) as i32]
        })
        .collect()
}

/// Rates of one slow variable and of others that rise or fall throughout, or now and then do not.
fn random_flows(random: &mut Random, n: usize) -> Vec<i32> {
    let pump = random.below(n);
    (0..n)
        .flat_map(|i| {
            let (slow, more) = (random.range(1, 3) as i32, random.range(0, 3) as i32);
            let range = match (i == pump, random.below(4)) {
                (true, 0) => [1, 1 + more],
                (true, 1) => [0, slow],
                (true, _) | (false, 0) => [-slow, more],
                (false, _) => [slow, slow + more],
            };
            if random.chance(1, 2) {
                range
            } else {
                [-range[1], -range[0]]
            }
        })
        .collect()
}

/// Location and box that the cut of the delays keeps from being touched.
fn box_of_before(random: &mut Random, draft: &Draft) -> Option<(usize, Vec<i32>)> {
    let words = draft.words();
    let plant = Plant::from_words(&words).expect("a random model passes its questions");
    let (mut now, mut then) = (vec![0; plant.table_words()], vec![0; plant.table_words()]);
    if !close(&plant, &mut now, HELP_PASSES) || !close_by(&plant, &mut then, HELP_PASSES, before::pass) || now == then {
        return None;
    }
    find_box(random, draft, |l, bounds| touched_in(&plant, &then, l, bounds) && !touched_in(&plant, &now, l, bounds))
}
