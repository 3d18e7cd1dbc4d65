//! Runs, from document 01's section "Runs" alone, with document 02's reset ranges (T-10).
//!
//! Levels and delays are whole numbers over a common denominator D; only the numerators
//! are held. The questions at the top say whether a piece of a run is allowed. The maker
//! of random runs below proposes pieces and takes only what they allow.

use crate::inputs::random::Random;
use crate::reference::delays::some_delay_meets;
use crate::reference::fraction::{down, up};
use crate::reference::model::{Plant, Switch, MAX_BOX};

/// A location, and for each variable the numerator of its level over D.
#[derive(Clone, Debug, PartialEq, Eq)]
pub struct Configuration {
    pub location: usize,
    pub levels: Vec<i64>,
}

/// A delay (numerator over D) or the number of a switch.
#[derive(Clone, Copy, Debug, PartialEq, Eq)]
pub enum Move {
    Delay(i64),
    Switch(usize),
}

#[derive(Clone, Debug)]
pub struct Run {
    pub denominator: i64,
    pub first: Configuration,
    /// Each move with the configuration it leaves.
    pub moves: Vec<(Move, Configuration)>,
}

/// low × D ≤ level ≤ high × D for each variable.
fn in_box(levels: &[i64], denominator: i64, bounds: &[i32]) -> bool {
    levels
        .iter()
        .zip(bounds.chunks_exact(2))
        .all(|(&level, range)| range[0] as i64 * denominator <= level && level <= range[1] as i64 * denominator)
}

fn in_invariant(plant: &Plant, denominator: i64, at: &Configuration) -> bool {
    in_box(&at.levels, denominator, plant.location(at.location).invariant)
}

/// May a run start here? In the start box of a location with start flag 1, and, as every configuration, in
/// the invariant.
pub fn may_start(plant: &Plant, denominator: i64, at: &Configuration) -> bool {
    let location = plant.location(at.location);
    location.started && in_box(&at.levels, denominator, location.start) && in_invariant(plant, denominator, at)
}

/// Is this move allowed from one configuration to the other?
pub fn may_move(plant: &Plant, denominator: i64, from: &Configuration, step: Move, to: &Configuration) -> bool {
    let n = plant.sizes.n;
    let allowed = match step {
        Move::Delay(t) => {
            let rates = plant.location(from.location).rates;
            t >= 0
                && from.location == to.location
                && (0..n).all(|i| {
                    let moved = to.levels[i] - from.levels[i];
                    rates[2 * i] as i64 * t <= moved && moved <= rates[2 * i + 1] as i64 * t
                })
        }
        Move::Switch(s) => {
            let switch = plant.switch(s);
            from.location == switch.source
                && to.location == switch.target
                && in_box(&from.levels, denominator, switch.guard)
                && in_box(&to.levels, denominator, switch.reset)
                && (0..n).all(|i| {
                    if switch.masked(i) {
                        // Any value of its reset range, a fraction too.
                        in_box(&to.levels[i..=i], denominator, &switch.reset[2 * i..2 * i + 2])
                    } else {
                        to.levels[i] == from.levels[i]
                    }
                })
        }
    };
    allowed && in_invariant(plant, denominator, from) && in_invariant(plant, denominator, to)
}

/// Is the whole list a run?
pub fn is_run(plant: &Plant, run: &Run) -> bool {
    if run.denominator < 1 || !may_start(plant, run.denominator, &run.first) {
        return false;
    }
    let mut before = &run.first;
    run.moves.iter().all(|(step, after)| {
        let allowed = may_move(plant, run.denominator, before, *step, after);
        before = after;
        allowed
    })
}

/// Does the configuration lie in a forbidden box of its location?
pub fn is_forbidden(plant: &Plant, denominator: i64, at: &Configuration) -> bool {
    (0..plant.sizes.forbidden).any(|f| {
        let forbidden = plant.forbidden(f);
        forbidden.location == at.location && in_box(&at.levels, denominator, forbidden.bounds)
    })
}

/// Does some part of the table reach the configuration by one delay?
pub fn is_reached(plant: &Plant, table: &[i32], denominator: i64, at: &Configuration) -> bool {
    let sizes = plant.sizes;
    let location = plant.location(at.location);
    let two_n = 2 * sizes.n;
    let mut rates = [0i64; MAX_BOX];
    let mut point = [0i64; MAX_BOX];
    for i in 0..two_n {
        rates[i] = location.rates[i] as i64;
        point[i] = at.levels[i / 2];
    }
    let reaches = |part: &[i32]| {
        let mut scaled = [0i64; MAX_BOX];
        for i in 0..two_n {
            scaled[i] = part[i] as i64 * denominator;
        }
        some_delay_meets(&scaled[..two_n], &rates[..two_n], &point[..two_n])
    };
    let mut pieces = table[plant.location_places(at.location)].chunks_exact(sizes.face_words());
    location.start_part().is_some_and(|start| reaches(&start))
        || pieces.any(|words| words[0] == 1 && reaches(&words[1..]))
}

/// A number from low to high, often one of the ends.
fn leaning(random: &mut Random, low: i64, high: i64) -> i64 {
    match random.below(4) {
        0 => low,
        1 => high,
        _ => random.range(low, high),
    }
}

/// Where a run can start: in the start part of a location, if there is any.
fn random_start(plant: &Plant, random: &mut Random, denominator: i64) -> Option<Configuration> {
    let has_start = |l: &usize| plant.location(*l).start_part().is_some();
    let starts: Vec<usize> = (0..plant.sizes.locations).filter(has_start).collect();
    if starts.is_empty() {
        return None;
    }
    let location = random.pick(&starts);
    let start = plant.location(location).start_part()?;
    let levels = start[..2 * plant.sizes.n]
        .chunks_exact(2)
        .map(|r| leaning(random, r[0] as i64 * denominator, r[1] as i64 * denominator))
        .collect();
    Some(Configuration { location, levels })
}

/// A random run with at most `length` moves; None if no location has a start part.
pub fn random_run(plant: &Plant, random: &mut Random, denominator: i64, length: usize) -> Option<Run> {
    let first = random_start(plant, random, denominator)?;
    let mut at = first.clone();
    let mut moves = Vec::new();
    for _ in 0..length {
        let proposed = if random.chance(2, 3) {
            propose_switch(plant, random, denominator, &at).or_else(|| propose_delay(plant, random, denominator, &at))
        } else {
            propose_delay(plant, random, denominator, &at)
        };
        if let Some((step, next)) = proposed {
            moves.push((step, next.clone()));
            at = next;
        }
    }
    Some(Run { denominator, first, moves })
}

/// What random runs went through.
#[derive(Clone, Copy, Debug, Default)]
pub struct Travelled {
    pub runs: u64,
    pub delays: u64,
    pub switches: u64,
    pub configurations: u64,
    /// Configurations that lie in a forbidden box.
    pub forbidden: u64,
    /// Configurations that no part of the table reaches.
    pub unreached: u64,
    /// Switches that set a variable to a level strictly inside its reset range, and to a fraction.
    pub inside_ranges: u64,
    pub fractions: u64,
}

impl Travelled {
    pub fn add(&mut self, other: &Travelled) {
        self.runs += other.runs;
        self.delays += other.delays;
        self.switches += other.switches;
        self.configurations += other.configurations;
        self.forbidden += other.forbidden;
        self.unreached += other.unreached;
        self.inside_ranges += other.inside_ranges;
        self.fractions += other.fractions;
    }

    /// Counts a switch by where in its reset ranges it set its variables.
    fn note_switch(&mut self, denominator: i64, switch: &Switch, left: &Configuration) {
        let inside = |&i: &usize| {
            let ends = [switch.reset[2 * i], switch.reset[2 * i + 1]].map(|end| end as i64 * denominator);
            switch.masked(i) && ends[0] < left.levels[i] && left.levels[i] < ends[1]
        };
        let set: Vec<usize> = (0..left.levels.len()).filter(inside).collect();
        self.inside_ranges += !set.is_empty() as u64;
        self.fractions += set.iter().any(|&i| left.levels[i] % denominator != 0) as u64;
    }
}

/// Makes random runs, over several denominators, and holds each configuration to the
/// forbidden boxes and to the table.
pub fn travel(plant: &Plant, table: &[i32], random: &mut Random, runs: u64) -> Travelled {
    let mut travelled = Travelled::default();
    for _ in 0..runs {
        let denominator = random.pick(&[1, 2, 3, 4, 6, 12, 60, 7, 420]);
        let Some(run) = random_run(plant, random, denominator, 15) else {
            continue;
        };
        assert!(is_run(plant, &run), "the maker of random runs made none: {run:?}");
        travelled.runs += 1;
        for (step, left) in &run.moves {
            match step {
                Move::Delay(_) => travelled.delays += 1,
                Move::Switch(s) => {
                    travelled.switches += 1;
                    travelled.note_switch(denominator, &plant.switch(*s), left);
                }
            }
        }
        for at in std::iter::once(&run.first).chain(run.moves.iter().map(|(_, left)| left)) {
            travelled.configurations += 1;
            travelled.forbidden += is_forbidden(plant, denominator, at) as u64;
            travelled.unreached += !is_reached(plant, table, denominator, at) as u64;
        }
    }
    travelled
}

/// The levels with those of the masked variables set: each to a value of its reset range inside the target's
/// invariant, often one of the ends of what is left of it, often a fraction, now and then inside a forbidden box of the
/// target. None where nothing is left.
fn set_levels(
    plant: &Plant,
    random: &mut Random,
    denominator: i64,
    switch: &Switch,
    levels: &[i64],
) -> Option<Vec<i64>> {
    let both = |[low, high]: [i32; 2], bounds: &[i32], i: usize| [low.max(bounds[2 * i]), high.min(bounds[2 * i + 1])];
    let invariant = plant.location(switch.target).invariant;
    let aimed_at = (plant.sizes.forbidden > 0 && random.chance(1, 3))
        .then(|| plant.forbidden(random.below(plant.sizes.forbidden)))
        .filter(|forbidden| forbidden.location == switch.target);
    let mut levels = levels.to_vec();
    for i in (0..levels.len()).filter(|&i| switch.masked(i)) {
        let mut range = both([switch.reset[2 * i], switch.reset[2 * i + 1]], invariant, i);
        if range[0] > range[1] {
            return None;
        }
        let aimed = aimed_at.map(|forbidden| both(range, forbidden.bounds, i));
        range = aimed.filter(|aimed| aimed[0] <= aimed[1]).unwrap_or(range);
        levels[i] = leaning(random, range[0] as i64 * denominator, range[1] as i64 * denominator);
    }
    Some(levels)
}

/// One of the switches that are allowed here.
fn propose_switch(
    plant: &Plant,
    random: &mut Random,
    denominator: i64,
    at: &Configuration,
) -> Option<(Move, Configuration)> {
    let mut open = Vec::new();
    for s in 0..plant.sizes.switches {
        let switch = plant.switch(s);
        if switch.source != at.location {
            continue;
        }
        let Some(levels) = set_levels(plant, random, denominator, &switch, &at.levels) else {
            continue;
        };
        let next = Configuration { location: switch.target, levels };
        if may_move(plant, denominator, at, Move::Switch(s), &next) {
            open.push((Move::Switch(s), next));
        }
    }
    if open.is_empty() {
        return None;
    }
    let chosen = random.below(open.len());
    Some(open.swap_remove(chosen))
}

/// A delay to a random wall, to a random forbidden box, or to anywhere in the invariant.
fn propose_delay(
    plant: &Plant,
    random: &mut Random,
    denominator: i64,
    at: &Configuration,
) -> Option<(Move, Configuration)> {
    let n = plant.sizes.n;
    let location = plant.location(at.location);
    // Where the levels are to be after the delay.
    let mut goal: Vec<(i64, i64)> =
        location.invariant.chunks_exact(2).map(|r| (r[0] as i64 * denominator, r[1] as i64 * denominator)).collect();
    match random.below(4) {
        0 | 1 => {
            let face = random.below(2 * n);
            let wall = location.invariant[face] as i64 * denominator;
            goal[face / 2] = (wall, wall);
        }
        2 if plant.sizes.forbidden > 0 => {
            let forbidden = plant.forbidden(random.below(plant.sizes.forbidden));
            if forbidden.location == at.location {
                for (range, bounds) in goal.iter_mut().zip(forbidden.bounds.chunks_exact(2)) {
                    range.0 = range.0.max(bounds[0] as i64 * denominator);
                    range.1 = range.1.min(bounds[1] as i64 * denominator);
                    if range.0 > range.1 {
                        return None;
                    }
                }
            }
        }
        _ => {}
    }
    // The whole t with level + a·t ≤ high and level + c·t ≥ low for every variable.
    let (mut first, mut last) = (0i64, 20 * denominator + 10_000_000);
    for i in 0..n {
        let conditions = [
            (goal[i].1 - at.levels[i], -(location.rates[2 * i] as i64)),
            (at.levels[i] - goal[i].0, location.rates[2 * i + 1] as i64),
        ];
        for (room, slope) in conditions {
            match slope {
                0 if room < 0 => return None,
                0 => {}
                1.. => first = first.max(up(-room, slope)),
                _ => last = last.min(down(room, -slope)),
            }
        }
    }
    if first > last {
        return None;
    }
    let last = last.min(first + 50 * denominator);
    let t = leaning(random, first, last);
    let levels = (0..n)
        .map(|i| {
            let low = goal[i].0.max(at.levels[i] + location.rates[2 * i] as i64 * t);
            let high = goal[i].1.min(at.levels[i] + location.rates[2 * i + 1] as i64 * t);
            leaning(random, low, high)
        })
        .collect();
    let next = Configuration { location: at.location, levels };
    may_move(plant, denominator, at, Move::Delay(t), &next).then_some((Move::Delay(t), next))
}
