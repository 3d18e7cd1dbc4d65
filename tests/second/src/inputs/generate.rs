//! Random models and tables.
//!
//! Models are small most of the time, so that walls of zero width, landings and long
//! chains of switches come up often; every n and the largest sizes come up too.

use crate::inputs::draft::{grid, Draft, LocationDraft, SwitchDraft};
use crate::inputs::examples::face_by_face;
use crate::inputs::random::Random;
use crate::inputs::starts::{table_of_whole_boxes, whole_box_touches};
use crate::reference::analysis::{run_quick, Answer};
use crate::reference::ceiling;
use crate::reference::delays::touches;
use crate::reference::model::{Edition, Piece, Plant, LEVEL, MAX_FORBIDDEN, MAX_LOCATIONS, MAX_SWITCHES, RATE};
use crate::reference::tables::{pass, Pass};

// ---------------------------------------------------------------- models

/// A random model that keeps all rules.
pub fn random_model(random: &mut Random) -> Draft {
    let edition = random_edition(random);
    let mut draft = if random.chance(1, 4) { random_grid(random, edition) } else { random_free(random, edition) };
    random_starts(random, &mut draft);
    random_forbidden(random, &mut draft);
    random_cuts(random, &mut draft);
    draft
}

/// Either edition.
pub(crate) fn random_edition(random: &mut Random) -> Edition {
    random.pick(&Edition::BOTH)
}

/// Locations and switches, without a start, a forbidden box and a cut.
pub(crate) fn random_plant(random: &mut Random, edition: Edition) -> Draft {
    if random.chance(1, 3) {
        random_grid(random, edition)
    } else {
        random_free(random, edition)
    }
}

/// Passes that are made at most to find out what helps a random model: its cuts, its start parts or the cut of its
/// delays.
pub(crate) const HELP_PASSES: u32 = 60;
/// Locations that such a model has at most.
pub(crate) const MOST_HELPED: usize = 12;
/// How many drafts are tried for one with a box that tells.
const DRAFTS: usize = 20;

/// The first of some random drafts for which a box is found, with this one forbidden; if none is found soon, the last
/// of them, with random boxes.
pub(crate) fn with_found_box(
    random: &mut Random,
    draw: fn(&mut Random) -> Draft,
    find: fn(&mut Random, &Draft) -> Option<(usize, Vec<i32>)>,
) -> Draft {
    let mut draft = Draft::default();
    for _ in 0..DRAFTS {
        draft = draw(random);
        if let Some(found) = find(random, &draft) {
            draft.forbidden = vec![found];
            return draft;
        }
    }
    random_forbidden(random, &mut draft);
    draft
}

/// A draft with starts, those of one draft in three across walls now and then, and with random cuts.
pub(crate) fn with_starts_and_cuts(random: &mut Random, mut draft: Draft) -> Draft {
    let crossing = random.pick(&[(0, 1), (0, 1), (1, 2)]);
    place_starts(random, &mut draft, crossing);
    random_cuts(random, &mut draft);
    draft
}

/// A random model with cuts and one forbidden box: one that a part would touch without the cuts and none
/// touches with them, if such a box is found soon.
pub fn helped_model(random: &mut Random) -> Draft {
    let draw = |random: &mut Random| {
        let edition = random_edition(random);
        let mut draft = random_plant(random, edition);
        place_starts(random, &mut draft, (1, 4));
        cut_locations(random, &mut draft, 1, 1);
        draft
    };
    with_found_box(random, draw, helped_box)
}

/// A random model with start boxes that cross walls and one forbidden box: one that would be touched if start
/// boxes were taken whole and is not touched as it is, if such a box is found soon.
pub fn crossing_model(random: &mut Random) -> Draft {
    let draw = |random: &mut Random| {
        let edition = random_edition(random);
        let mut draft = random_plant(random, edition);
        place_starts(random, &mut draft, (1, 1));
        random_cuts(random, &mut draft);
        draft
    };
    with_found_box(random, draw, box_beyond_starts)
}

/// Location and box that no part touches, though one would if start boxes were taken whole.
fn box_beyond_starts(random: &mut Random, draft: &Draft) -> Option<(usize, Vec<i32>)> {
    if draft.locations.len() > MOST_HELPED {
        return None;
    }
    let words = draft.words();
    let plant = Plant::from_words(&words).expect("a random model passes its questions");
    let mut table = vec![0; plant.table_words()];
    let (whole, at_rest) = table_of_whole_boxes(&plant, HELP_PASSES);
    if !at_rest || !close(&plant, &mut table, HELP_PASSES) {
        return None;
    }
    find_box(random, draft, |l, bounds| {
        let by_whole = whole_box_touches(&plant, l, bounds) || touched_in(&plant, &whole, l, bounds);
        by_whole && !touched_in(&plant, &table, l, bounds)
    })
}

/// Location and box that the cuts keep from being touched.
fn helped_box(random: &mut Random, draft: &Draft) -> Option<(usize, Vec<i32>)> {
    if draft.cuts.is_empty() || draft.locations.len() > MOST_HELPED {
        return None;
    }
    let words = draft.words();
    let whole_words = Draft { cuts: vec![], ..draft.clone() }.words();
    let plant = Plant::from_words(&words).expect("a random model passes its questions");
    let whole = Plant::from_words(&whole_words).expect("a random model passes its questions");
    let (mut table, mut whole_table) = (vec![0; plant.table_words()], vec![0; whole.table_words()]);
    if !close(&plant, &mut table, HELP_PASSES) || !close(&whole, &mut whole_table, HELP_PASSES) {
        return None;
    }
    find_box(random, draft, |l, bounds| {
        !touched_in(&plant, &table, l, bounds) && touched_in(&whole, &whole_table, l, bounds)
    })
}

/// A random location and box in its invariant that is as wanted, if one is found soon.
pub(crate) fn find_box(
    random: &mut Random,
    draft: &Draft,
    wanted: impl Fn(usize, &[i32]) -> bool,
) -> Option<(usize, Vec<i32>)> {
    (0..40).find_map(|_| {
        let l = random.below(draft.locations.len());
        let bounds: Vec<i32> = draft.locations[l]
            .invariant
            .chunks_exact(2)
            .flat_map(|r| if random.chance(1, 4) { [r[0], r[1]] } else { random_range(random, r[0], r[1]) })
            .collect();
        wanted(l, &bounds).then_some((l, bounds))
    })
}

/// A part of location l touches the box.
pub(crate) fn touched_in(plant: &Plant, table: &[i32], l: usize, bounds: &[i32]) -> bool {
    let location = plant.location(l);
    let hit = |part: &[i32]| touches(plant.sizes.n, part, location.rates, location.invariant, bounds);
    let mut pieces = table[plant.location_places(l)].chunks_exact(plant.sizes.face_words());
    location.start_part().is_some_and(|start| hit(&start)) || pieces.any(|words| words[0] == 1 && hit(&words[1..]))
}

/// A random model whose levels and rates lie at both ends of what is allowed, or beside them.
pub fn extreme_model(random: &mut Random) -> Draft {
    const LEVELS: [i32; 7] = [-LEVEL, -LEVEL + 1, -1, 0, 1, LEVEL - 1, LEVEL];
    const RATES: [i32; 9] = [-RATE, -RATE, 1 - RATE, -1, 0, 1, RATE - 1, RATE, RATE];
    // Now and then so many locations and variables that the ceiling needs more than 32 bits.
    let (n, locations) =
        if random.chance(1, 12) { (6, 40 + random.below(25)) } else { (random_n(random), 1 + random.below(4)) };
    let mut draft = Draft { n, edition: random_edition(random), ..Draft::default() };
    for _ in 0..locations {
        let mut ends = |list: &[i32]| -> Vec<i32> {
            (0..n)
                .flat_map(|_| {
                    let (x, y) = (random.pick(list), random.pick(list));
                    [x.min(y), x.max(y)]
                })
                .collect()
        };
        let rates = ends(&RATES);
        let mut invariant = ends(&LEVELS);
        for range in invariant.chunks_exact_mut(2) {
            if random.chance(2, 3) {
                range.copy_from_slice(&[-LEVEL, LEVEL]);
            }
        }
        draft.locations.push(LocationDraft { invariant, rates, start: None });
    }
    for _ in 0..random.below(6) {
        let switch = random_switch(random, &draft);
        draft.switches.push(switch);
    }
    random_starts(random, &mut draft);
    random_forbidden(random, &mut draft);
    random_cuts(random, &mut draft);
    draft
}

/// A random plant whose table grows for thousands of passes, as `examples::dosing` does: a stroke x
/// goes up and is set back, in one location or a ring of them, and the level y rises or falls
/// meanwhile by a dose. Each of the many doses takes two passes.
pub fn long_model(random: &mut Random) -> Draft {
    let locations = 1 + random.below(3);
    let stroke = random.range(1, 5) as i32;
    let rate = random.pick(&[1, 2, RATE]);
    let flow = random.range(1, (3 * rate / stroke).clamp(1, RATE) as i64) as i32;
    // What a stroke adds, rounded up as the wall step does.
    let dose = (flow * stroke + rate - 1) / rate;
    let low = random.range(-5_000, 5_000) as i32;
    let high = low + dose * random.range(800, 2_000) as i32;
    let falls = random.chance(1, 2);
    let (first, rates) = if falls { (high, [-flow, 0]) } else { (low, [0, flow]) };
    let start = long_start(random, first, falls);
    let mut draft = Draft { n: 2, edition: random_edition(random), ..Draft::default() };
    for l in 0..locations {
        draft.locations.push(LocationDraft {
            invariant: vec![0, stroke, low, high],
            rates: vec![rate, rate, rates[0], rates[1]],
            start: (l == 0).then(|| start.clone()),
        });
        draft.switches.push(SwitchDraft {
            source: l,
            target: (l + 1) % locations,
            d: 0,
            source_side: 1,
            target_side: 0,
            mask: 0b01,
            guard: vec![stroke, stroke, low, high],
            reset: vec![0, 0, low, high],
        });
    }
    // The far end of the level: forbidden where it is reached last, or where nothing reaches.
    let far = if falls { low } else { high };
    match random.below(3) {
        0 => draft.forbidden.push((0, vec![0, stroke, far, far])),
        1 => draft.forbidden.push((0, vec![0, stroke, high + 1, high + 2])),
        _ => {}
    }
    random_cuts(random, &mut draft);
    draft
}

/// The start of such a plant: stroke 0 and the first level. Now and then the box has more behind the walls that
/// these are, which changes nothing.
fn long_start(random: &mut Random, first: i32, falls: bool) -> Vec<i32> {
    let mut start = vec![0, 0, first, first];
    if random.chance(1, 3) {
        start[0] -= random.range(0, 3) as i32;
        let by = random.range(0, 50) as i32;
        start[2 + falls as usize] += if falls { by } else { -by };
    }
    start
}

/// A random plant of one variable that takes as many passes as its ceiling: see `examples::face_by_face`. Now and then
/// the last face is forbidden.
pub fn stepwise_model(random: &mut Random) -> Draft {
    let most = if random.chance(1, 8) { MAX_LOCATIONS } else { 6 };
    let locations = 1 + random.below(most);
    let mut invariants = Vec::new();
    for _ in 0..locations {
        let low = random.range(-20, 20) as i32;
        invariants.push([low, low + random.range(1, 4) as i32]);
    }
    let mut faces: Vec<(usize, usize)> = (0..locations).flat_map(|l| [(l, 0), (l, 1)]).collect();
    for place in 1..faces.len() {
        faces.swap(place, random.below(place + 1));
    }
    let mut draft = Draft { edition: random_edition(random), ..face_by_face(&invariants, &faces) };
    let (location, side) = faces[faces.len() - 1];
    if random.chance(1, 4) {
        draft.forbidden.push((location, vec![invariants[location][side]; 2]));
    }
    random_cuts(random, &mut draft);
    draft
}

fn random_n(random: &mut Random) -> usize {
    random.pick(&[1, 1, 2, 2, 2, 2, 2, 3, 3, 3, 4, 4, 5, 6])
}

/// A list of rising values from which the ends of ranges are taken, so that walls of
/// different locations often agree.
fn random_values(random: &mut Random) -> Vec<i32> {
    let (low, high) = match random.below(10) {
        0..=4 => (-4, 9),
        5 | 6 => (-60, 100),
        7 | 8 => (-5_000, 5_000),
        _ => (-(LEVEL as i64), LEVEL as i64),
    };
    let count = 2 + random.below(4);
    let mut values: Vec<i32> = (0..count).map(|_| random.range(low, high) as i32).collect();
    if high == LEVEL as i64 {
        values.push(LEVEL);
        values.push(-LEVEL);
    }
    values.sort_unstable();
    values.dedup();
    values
}

fn random_rates(random: &mut Random, n: usize) -> Vec<i32> {
    let most = random.pick(&[1, 2, 2, 3, 3, 5, 20, RATE]) as i64;
    let mut rates = Vec::new();
    for _ in 0..n {
        let (mut a, mut c) = (random.range(-most, most), random.range(-most, most));
        match random.below(6) {
            0 => c = a,
            1 => (a, c) = (a.abs(), c.abs()),
            2 => (a, c) = (-a.abs(), -c.abs()),
            _ => {}
        }
        rates.push(a.min(c) as i32);
        rates.push(a.max(c) as i32);
    }
    rates
}

/// A range within low..high.
pub(crate) fn random_range(random: &mut Random, low: i32, high: i32) -> [i32; 2] {
    let x = random.range(low as i64, high as i64) as i32;
    let y = random.range(low as i64, high as i64) as i32;
    [x.min(y), x.max(y)]
}

/// A range near low..high: equal, inside, at one end, or sticking out.
fn random_near(random: &mut Random, low: i32, high: i32) -> [i32; 2] {
    match random.below(10) {
        0..=4 => [low, high],
        5 | 6 => random_range(random, low, high),
        7 => [low, low],
        8 => {
            let out = random.range(0, 3) as i32;
            [(low - out).max(-LEVEL), (high + out).min(LEVEL)]
        }
        _ => random_range(random, (low - 5).max(-LEVEL), (high + 5).min(LEVEL)),
    }
}

/// A reset range near low..high: mostly inside it, now and then all of it, a single value, sticking out on one
/// side or on both, onto the wall alone, or outside. Where there is no level beyond, it ends at the last one.
fn random_reset(random: &mut Random, low: i32, high: i32) -> [i32; 2] {
    let mut beyond = || if random.chance(1, 12) { 2 * LEVEL } else { random.range(1, 6) as i32 };
    let (below, above) = (low - beyond(), high + beyond());
    let at = random.range(low as i64, high as i64) as i32;
    let range = match random.below(16) {
        0..=5 => random_range(random, low, high),
        6 => [low, high],
        7 | 8 => [at, at],
        9 => [below, at],
        10 => [at, above],
        11 => [below, above],
        12 => [below, low],
        13 => [high, above],
        14 => [below, low - 1],
        _ => [high + 1, above],
    };
    range.map(|end| end.clamp(-LEVEL, LEVEL))
}

/// Cells in a grid, with random rates. In edition 2 some switches more, across the grid.
fn random_grid(random: &mut Random, edition: Edition) -> Draft {
    let n = random_n(random);
    let width = random.pick(&[1, 2, 3, 5, 8, 50]);
    let mut room = if random.chance(1, 8) { MAX_LOCATIONS } else { 8 };
    let mut walls = Vec::new();
    for _ in 0..n {
        let most = room.min(8).max(1);
        let cells = 1 + random.below(most);
        room /= cells;
        let low = random.range(-10, 10) as i32;
        walls.push((0..=cells as i32).map(|i| low + i * width).collect());
    }
    let mut rates_of = random.clone();
    random.next();
    let mut draft = Draft { edition, ..grid(&walls, |_| random_rates(&mut rates_of, n)) };
    if edition == Edition::Two {
        for _ in 0..random.below(4).min(MAX_SWITCHES - draft.switches.len()) {
            let switch = random_switch(random, &draft);
            draft.switches.push(switch);
        }
    }
    draft
}

/// Locations and switches thrown together.
fn random_free(random: &mut Random, edition: Edition) -> Draft {
    let n = random_n(random);
    let values: Vec<Vec<i32>> = (0..n).map(|_| random_values(random)).collect();
    let locations = match random.below(20) {
        0 => 1 + random.below(MAX_LOCATIONS),
        1 => MAX_LOCATIONS,
        2..=5 => 1,
        _ => 1 + random.below(6),
    };
    let mut draft = Draft { n, edition, ..Draft::default() };
    for _ in 0..locations {
        let mut invariant = Vec::new();
        for values in &values {
            let (x, y) = (random.pick(values), random.pick(values));
            let (low, high) = (x.min(y), x.max(y));
            // A wall of zero width, now and then; more would leave too little to happen.
            let high = if low == high && random.chance(2, 3) { values[values.len() - 1] } else { high };
            invariant.extend([low, high]);
        }
        let rates = random_rates(random, n);
        draft.locations.push(LocationDraft { invariant, rates, start: None });
    }
    let switches = match random.below(20) {
        0 => random.below(MAX_SWITCHES + 1),
        1 => MAX_SWITCHES,
        2..=4 => 0,
        _ => random.below(4 * locations.min(20) + 3),
    };
    for _ in 0..switches {
        let switch = random_switch(random, &draft);
        draft.switches.push(switch);
    }
    draft
}

/// A switch that passes its questions in the draft's edition.
pub(crate) fn random_switch(random: &mut Random, draft: &Draft) -> SwitchDraft {
    let n = draft.n;
    let count = draft.locations.len();
    // Look for a pair of walls that agree; if none is found, d is reset to the target's wall.
    let mut found = None;
    for attempt in 0..8 {
        let (source, target) = (random.below(count), random.below(count));
        let (d, source_side, target_side) = (random.below(n), random.below(2), random.below(2));
        let agree = draft.locations[source].invariant[2 * d + source_side]
            == draft.locations[target].invariant[2 * d + target_side];
        if agree || attempt == 7 {
            found = Some((source, target, d, source_side, target_side, agree));
            break;
        }
    }
    let (source, target, d, source_side, target_side, agree) = found.expect("the last attempt is taken");
    let from = &draft.locations[source].invariant;
    let to = &draft.locations[target].invariant;
    let mut mask = 0u32;
    for i in 0..n {
        let likely = if draft.edition == Edition::Two && i != d { 2 } else { 1 };
        if random.chance(likely, 5) {
            mask |= 1 << i;
        }
    }
    if !agree {
        mask |= 1 << d;
    }
    let (mut guard, mut reset) = (Vec::new(), Vec::new());
    for i in 0..n {
        let masked = mask >> i & 1 == 1;
        if i == d {
            let wall = from[2 * d + source_side];
            guard.extend([wall, wall]);
            if masked {
                let wall = to[2 * d + target_side];
                reset.extend([wall, wall]);
            } else {
                // Mostly holds the wall; if not, the switch passes and never lands.
                reset.extend(random_near(random, to[2 * i], to[2 * i + 1]));
            }
            continue;
        }
        guard.extend(random_near(random, from[2 * i], from[2 * i + 1]));
        if masked && draft.edition == Edition::Two {
            reset.extend(random_reset(random, to[2 * i], to[2 * i + 1]));
        } else if masked {
            let near = random_near(random, to[2 * i], to[2 * i + 1]);
            reset.extend([near[0], near[0]]);
        } else {
            reset.extend(random_near(random, to[2 * i], to[2 * i + 1]));
        }
    }
    SwitchDraft { source, target, d, source_side, target_side, mask, guard, reset }
}

/// Start boxes in one location and in some of the others, or in none. In half of the models all of them lie
/// inside their invariants; in the others some or all of them cross a wall.
fn random_starts(random: &mut Random, draft: &mut Draft) {
    if random.chance(1, 20) {
        return;
    }
    let crossing = random.pick(&[(0, 1), (0, 1), (1, 2), (1, 1)]);
    place_starts(random, draft, crossing);
}

/// Start boxes, of which that part crosses a wall.
fn place_starts(random: &mut Random, draft: &mut Draft, (part, whole): (u64, u64)) {
    let sure = random.below(draft.locations.len());
    for (l, location) in draft.locations.iter_mut().enumerate() {
        if l != sure && !random.chance(1, 8) {
            continue;
        }
        let mut start: Vec<i32> =
            location.invariant.chunks_exact(2).flat_map(|r| start_range(random, r[0], r[1])).collect();
        if random.chance(part, whole) {
            cross_walls(random, &location.invariant, &mut start);
        }
        location.start = Some(start);
    }
}

/// A range within low..high: its low end, any level, at most 3 wide, so that there is something left to grow, or
/// now and then as wide as it happens.
fn start_range(random: &mut Random, low: i32, high: i32) -> [i32; 2] {
    let from = random.range(low as i64, high as i64) as i32;
    match random.below(8) {
        0 | 1 => [low, low],
        2 | 3 => [from, from],
        4..=6 => [from, (from + random.range(0, 3) as i32).min(high)],
        _ => random_range(random, low, high),
    }
}

/// Moves a start box across walls of its invariant: out on one side of a variable, on both, on both of every
/// variable, onto the wall alone, behind it, or behind walls of several variables. Where an end of the
/// invariant is the last level, the box stays inside there.
fn cross_walls(random: &mut Random, invariant: &[i32], start: &mut [i32]) {
    let n = invariant.len() / 2;
    let (i, side) = (random.below(n), random.below(2));
    match random.below(10) {
        0..=3 => start[2 * i + side] = beyond(random, invariant, 2 * i + side),
        4 => (2 * i..2 * i + 2).for_each(|end| start[end] = beyond(random, invariant, end)),
        5 => (0..2 * n).for_each(|end| start[end] = beyond(random, invariant, end)),
        6 | 7 => {
            start[2 * i + 1 - side] = invariant[2 * i + side];
            start[2 * i + side] = beyond(random, invariant, 2 * i + side);
        }
        8 => place_behind(random, invariant, start, i),
        _ => {
            for other in 0..n {
                if other == i || random.chance(1, 2) {
                    place_behind(random, invariant, start, other);
                }
            }
        }
    }
}

/// A level behind a wall, mostly near it, now and then the last one. The wall itself where there is none.
fn beyond(random: &mut Random, invariant: &[i32], face: usize) -> i32 {
    let by = if random.chance(1, 8) { 2 * LEVEL } else { random.range(1, 6) as i32 };
    (invariant[face] + [-by, by][face % 2]).clamp(-LEVEL, LEVEL)
}

/// Moves variable i of a start box behind one of its walls.
fn place_behind(random: &mut Random, invariant: &[i32], start: &mut [i32], i: usize) {
    let face = 2 * i + random.below(2);
    let (x, y) = (beyond(random, invariant, face), beyond(random, invariant, face));
    start[2 * i..2 * i + 2].copy_from_slice(&[x.min(y), x.max(y)]);
}

fn random_forbidden(random: &mut Random, draft: &mut Draft) {
    let boxes = match random.below(20) {
        0 => random.below(MAX_FORBIDDEN + 1),
        1 => MAX_FORBIDDEN,
        2..=7 => 0,
        _ => 1 + random.below(3),
    };
    for _ in 0..boxes {
        let location = random.below(draft.locations.len());
        let mut bounds = Vec::new();
        for r in draft.locations[location].invariant.chunks_exact(2) {
            let range = match random.below(8) {
                0 => [r[1], r[1]],
                1 => [r[0], r[0]],
                2 | 3 => [r[0], r[1]],
                4 => random_near(random, r[0], r[1]),
                5 => {
                    // Beyond the invariant, or just at its end.
                    let low = (r[1] + random.range(0, 2) as i32).min(LEVEL);
                    [low, low]
                }
                _ => {
                    let x = random.range(r[0] as i64, r[1] as i64) as i32;
                    [x, x]
                }
            };
            bounds.extend(range);
        }
        draft.forbidden.push((location, bounds));
    }
}

/// Cuts in no location, in one, in some or in all of those that can be cut.
fn random_cuts(random: &mut Random, draft: &mut Draft) {
    match random.below(8) {
        0..=2 => {}
        3 => {
            let l = random.below(draft.locations.len());
            draft.cuts = random_cut(random, draft, l).into_iter().collect();
        }
        4 | 5 => cut_locations(random, draft, 1, 2),
        _ => cut_locations(random, draft, 1, 1),
    }
}

/// Cuts in `part` of `whole` of the locations that can be cut.
fn cut_locations(random: &mut Random, draft: &mut Draft, part: u64, whole: u64) {
    for l in 0..draft.locations.len() {
        if random.chance(part, whole) {
            let cut = random_cut(random, draft, l);
            draft.cuts.extend(cut);
        }
    }
}

/// A cut of a location, if one of its variables has a value strictly inside the invariant.
pub(crate) fn random_cut(random: &mut Random, draft: &Draft, l: usize) -> Option<(usize, usize, i32)> {
    let invariant = &draft.locations[l].invariant;
    let wide: Vec<usize> = (0..draft.n).filter(|&i| invariant[2 * i] < invariant[2 * i + 1] - 1).collect();
    if wide.is_empty() {
        return None;
    }
    if random.chance(1, 4) {
        if let Some((i, value)) = cut_of_start(random, &draft.locations[l]) {
            return Some((l, i, value));
        }
    }
    let i = random.pick(&wide);
    let (least, most) = (invariant[2 * i] + 1, invariant[2 * i + 1] - 1);
    let value = match random.below(8) {
        0 => least,
        1 => most,
        2 => least + (most - least) / 2,
        3 | 4 => near_a_box(random, draft, l, i).clamp(least, most),
        _ => random.range(least as i64, most as i64) as i32,
    };
    Some((l, i, value))
}

/// Variable and value of a cut with something of the location's start part on both sides, if one is found
/// soon.
fn cut_of_start(random: &mut Random, location: &LocationDraft) -> Option<(usize, i32)> {
    let start = location.start.as_ref()?;
    let i = random.below(start.len() / 2);
    let low = start[2 * i].max(location.invariant[2 * i]);
    let high = start[2 * i + 1].min(location.invariant[2 * i + 1]);
    (low < high - 1).then(|| (i, random.range(low as i64 + 1, high as i64 - 1) as i32))
}

/// An end of variable i in the location's start box or in a forbidden box of it, or beside it.
fn near_a_box(random: &mut Random, draft: &Draft, l: usize, i: usize) -> i32 {
    let forbidden = draft.forbidden.iter().filter(|(location, _)| *location == l).map(|(_, bounds)| bounds);
    let ends: Vec<i32> = draft.locations[l]
        .start
        .iter()
        .chain(forbidden)
        .flat_map(|bounds| [bounds[2 * i], bounds[2 * i + 1]])
        .collect();
    if ends.is_empty() {
        return 0;
    }
    random.pick(&ends) + random.range(-1, 1) as i32
}

/// Passes that one may ask for on a model of this size without a long wait.
pub fn pass_budget(plant: &Plant) -> u32 {
    (200_000 / plant.table_words()).clamp(12, 1_500) as u32
}

/// A pass limit: 0, small, near the number of passes needed, or large where that is quick.
pub fn random_limit(random: &mut Random, plant: &Plant) -> u32 {
    let budget = pass_budget(plant);
    match random.below(6) {
        0 => 0,
        1 => random.below(4) as u32,
        2 => random.below(budget.min(40) as usize) as u32,
        _ => {
            let mut table = vec![0; plant.table_words()];
            let mut work = table.clone();
            let (answer, k) = run_quick(plant, budget, &mut table, &mut work);
            if answer == Answer::Unfinished {
                return budget;
            }
            let ceiling = ceiling::of_plant(plant).min(u32::MAX as u64) as u32;
            random.pick(&[k, k.saturating_sub(1), k + 1, ceiling, ceiling, u32::MAX, u32::MAX])
        }
    }
}

// ---------------------------------------------------------------- tables

/// A random table that passes question 32.
pub fn random_table(random: &mut Random, plant: &Plant) -> Vec<i32> {
    let mut table = vec![0; plant.table_words()];
    let (part, whole) = random.pick(&[(1, 1), (1, 2), (1, 4), (1, 16)]);
    for piece in plant.all_pieces() {
        if random.chance(part, whole) {
            put_random_piece(random, plant, &mut table, piece);
        }
    }
    table
}

/// Puts a random box into a piece; none into one that is always absent.
pub(crate) fn put_random_piece(random: &mut Random, plant: &Plant, table: &mut [i32], piece: Piece) {
    let Some(widest) = plant.widest(piece) else {
        return;
    };
    let words = &mut table[plant.piece_places(piece)];
    words[0] = 1;
    for i in 0..plant.sizes.n {
        let (low, high) = (widest[2 * i], widest[2 * i + 1]);
        let range = if random.chance(1, 2) { [low, high] } else { random_range(random, low, high) };
        words[1 + 2 * i..3 + 2 * i].copy_from_slice(&range);
    }
}

/// Passes until nothing changes, at most `most` of them; true if nothing changes any more.
pub fn close(plant: &Plant, table: &mut [i32], most: u32) -> bool {
    close_by(plant, table, most, pass)
}

/// The same with another pass.
pub fn close_by(plant: &Plant, table: &mut [i32], most: u32, pass: Pass) -> bool {
    let mut next = table.to_vec();
    for _ in 0..most {
        if !pass(plant, table, &mut next) {
            return true;
        }
        table.copy_from_slice(&next);
    }
    false
}
