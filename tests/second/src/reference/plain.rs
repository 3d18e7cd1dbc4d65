//! A slow, literal pass and touching over lists of ranges, to check the quick ones.
//!
//! The delays of a wall step are found here from their meaning, not from document 01's cases:
//! t is a delay to wall b exactly if p + a·t ≤ b ≤ q + c·t for the wall's variable, and
//! p + a·t ≤ high and q + c·t ≥ low of the invariant for every variable. The ends of the set
//! of such t ≥ 0 are 0 or a t with equality, or the set has no last member.

use crate::reference::model::Plant;

/// A low and a high for each variable.
pub type Ranges = Vec<(i64, i64)>;
/// One entry for each location and piece; None is an absent piece.
pub type Faces = Vec<Vec<Option<Ranges>>>;

/// num/den with den > 0.
pub type Ratio = (i128, i128);

pub fn ranges(bounds: &[i32]) -> Ranges {
    bounds.chunks_exact(2).map(|r| (r[0] as i64, r[1] as i64)).collect()
}

/// The pieces of a location in the table's order: the face of each, and the box that it keeps to, which is
/// None for one that is always absent.
pub fn pieces(plant: &Plant, l: usize) -> Vec<(usize, Option<Ranges>)> {
    let location = plant.location(l);
    let mut pieces = Vec::new();
    for face in 0..2 * plant.sizes.n {
        let whole = ranges(location.invariant);
        match location.cut {
            None => pieces.push((face, Some(whole))),
            Some(cut) if cut.variable == face / 2 => pieces.extend([(face, Some(whole)), (face, None)]),
            Some(cut) => {
                let (mut first, mut second) = (whole.clone(), whole);
                first[cut.variable].1 = cut.value as i64;
                second[cut.variable].0 = cut.value as i64;
                pieces.extend([(face, Some(first)), (face, Some(second))]);
            }
        }
    }
    pieces
}

/// The table's words as faces.
pub fn from_words(plant: &Plant, table: &[i32]) -> Faces {
    let mut words = table.chunks_exact(1 + 2 * plant.sizes.n);
    let mut next = || words.next().expect("the table has the words of all pieces");
    let mut piece = || {
        let words = next();
        (words[0] == 1).then(|| ranges(&words[1..]))
    };
    (0..plant.sizes.locations).map(|l| pieces(plant, l).iter().map(|_| piece()).collect()).collect()
}

/// The faces as the table's words.
pub fn to_words(plant: &Plant, faces: &Faces) -> Vec<i32> {
    let mut words = Vec::new();
    for face in faces.iter().flatten() {
        match face {
            None => words.extend(vec![0; 1 + 2 * plant.sizes.n]),
            Some(held) => {
                words.push(1);
                for &(low, high) in held {
                    words.push(low as i32);
                    words.push(high as i32);
                }
            }
        }
    }
    words
}

/// The value p + rate·t, as a ratio over t's denominator.
fn after(p: i64, rate: i64, t: Ratio) -> Ratio {
    (p as i128 * t.1 + rate as i128 * t.0, t.1)
}

fn at_most(value: Ratio, bound: i64) -> bool {
    value.0 <= bound as i128 * value.1
}

fn at_least(value: Ratio, bound: i64) -> bool {
    value.0 >= bound as i128 * value.1
}

fn less(x: Ratio, y: Ratio) -> bool {
    x.0 * y.1 < y.0 * x.1
}

/// The t ≥ 0 with p + rate·t = value, if there is exactly one.
fn equality(p: i64, rate: i64, value: i64) -> Option<Ratio> {
    let way = value as i128 - p as i128;
    let rate = rate as i128;
    let t = if rate > 0 { (way, rate) } else { (-way, -rate) };
    (rate != 0 && t.0 >= 0).then_some(t)
}

/// First and last delay to wall b of variable d that all variables can live with; the last is None if there
/// is no last. None if no delay.
pub fn delays(part: &Ranges, rates: &Ranges, invariant: &Ranges, d: usize, b: i64) -> Option<(Ratio, Option<Ratio>)> {
    // Each variable's range after the delay is to meet these.
    let mut goals = vec![(d, (b, b))];
    goals.extend(invariant.iter().copied().enumerate());
    let good = |t: Ratio| {
        goals.iter().all(|&(i, (low, high))| {
            at_most(after(part[i].0, rates[i].0, t), high) && at_least(after(part[i].1, rates[i].1, t), low)
        })
    };
    let mut trials: Vec<Ratio> = vec![(0, 1)];
    for &(i, (low, high)) in &goals {
        trials.extend(equality(part[i].0, rates[i].0, high));
        trials.extend(equality(part[i].1, rates[i].1, low));
    }
    trials.retain(|&t| good(t));
    let first = trials.iter().copied().reduce(|x, y| if less(y, x) { y } else { x })?;
    // All equalities lie below 10^7, so a good t beyond that means that there is no last.
    if good((10_000_000, 1)) {
        return Some((first, None));
    }
    let last = trials.iter().copied().reduce(|x, y| if less(x, y) { y } else { x })?;
    Some((first, Some(last)))
}

/// The wall step by its meaning: least and greatest values over the delays.
pub fn wall_step(part: &Ranges, rates: &Ranges, invariant: &Ranges, d: usize, b: i64) -> Option<Ranges> {
    let (first, last) = delays(part, rates, invariant, d, b)?;
    let mut out = Vec::new();
    for i in 0..part.len() {
        let (least, most) = invariant[i];
        let (mut low, mut high) = (b, b);
        if i != d {
            let ((p, q), (a, c)) = (part[i], rates[i]);
            let floor = |t: Ratio| {
                let (num, den) = after(p, a, t);
                num.div_euclid(den) as i64
            };
            let roof = |t: Ratio| {
                let (num, den) = after(q, c, t);
                -((-num).div_euclid(den)) as i64
            };
            // A line's least value over an interval is at one of its ends.
            (low, high) = match last {
                Some(last) => (floor(first).min(floor(last)), roof(first).max(roof(last))),
                None => (if a < 0 { least } else { floor(first) }, if c > 0 { most } else { roof(first) }),
            };
        }
        (low, high) = (low.max(least), high.min(most));
        if low > high {
            return None;
        }
        out.push((low, high));
    }
    Some(out)
}

/// The smallest box holding both.
pub fn hull(held: &Option<Ranges>, new: &Ranges) -> Option<Ranges> {
    Some(match held {
        None => new.clone(),
        Some(held) => held.iter().zip(new).map(|(x, y)| (x.0.min(y.0), x.1.max(y.1))).collect(),
    })
}

/// What lies in both; None if nothing does.
pub fn cut(x: &Ranges, y: &Ranges) -> Option<Ranges> {
    let both: Ranges = x.iter().zip(y).map(|(x, y)| (x.0.max(y.0), x.1.min(y.1))).collect();
    both.iter().all(|r| r.0 <= r.1).then_some(both)
}

/// What of a location's start box lies in its invariant, under flag 1.
pub fn start(plant: &Plant, l: usize) -> Option<Ranges> {
    let location = plant.location(l);
    location.started.then(|| cut(&ranges(location.start), &ranges(location.invariant))).flatten()
}

/// The parts of location l: what is used of its start box, and the present pieces.
pub fn parts(plant: &Plant, faces: &Faces, l: usize) -> Vec<Ranges> {
    start(plant, l).into_iter().chain(faces[l].iter().flatten().cloned()).collect()
}

/// What a switch step gives from one part on the source's face.
pub fn switch_step(plant: &Plant, part: &Ranges, s: usize) -> Option<Ranges> {
    let switch = plant.switch(s);
    let mut moved = cut(part, &ranges(switch.guard))?;
    let reset = ranges(switch.reset);
    for i in 0..plant.sizes.n {
        if switch.mask & (1 << i) != 0 {
            moved[i] = reset[i];
        }
    }
    cut(&cut(&moved, &reset)?, &ranges(plant.location(switch.target).invariant))
}

/// One pass: to each piece everything that a step gives on its face, cut to the piece.
pub fn pass(plant: &Plant, old: &Faces) -> Faces {
    let mut new = old.clone();
    for l in 0..plant.sizes.locations {
        let location = plant.location(l);
        let (rates, invariant) = (ranges(location.rates), ranges(location.invariant));
        for (number, (face, keeps)) in pieces(plant, l).into_iter().enumerate() {
            let Some(keeps) = keeps else {
                continue;
            };
            let (d, side) = (face / 2, face % 2);
            let wall = if side == 0 { invariant[d].0 } else { invariant[d].1 };
            let mut results: Vec<Ranges> = Vec::new();
            results.extend(parts(plant, old, l).iter().filter_map(|part| wall_step(part, &rates, &invariant, d, wall)));
            for s in 0..plant.sizes.switches {
                let switch = plant.switch(s);
                if (switch.target, switch.d, switch.target_side) == (l, d, side) {
                    let source = pieces(plant, switch.source);
                    let on_face = |number: &usize| source[*number].0 == 2 * d + switch.source_side;
                    let parts = (0..source.len()).filter(on_face).filter_map(|n| old[switch.source][n].as_ref());
                    results.extend(parts.filter_map(|part| switch_step(plant, part, s)));
                }
            }
            for result in results.iter().filter_map(|result| cut(result, &keeps)) {
                new[l][number] = hull(&new[l][number], &result);
            }
        }
    }
    new
}

/// Touching by intersecting the times that each condition allows.
pub fn touches(part: &Ranges, rates: &Ranges, invariant: &Ranges, bounds: &Ranges) -> bool {
    let Some(bounds) = cut(bounds, invariant) else {
        return false;
    };
    let mut from: Ratio = (0, 1);
    let mut until: Option<Ratio> = None;
    for i in 0..part.len() {
        // room + slope·t ≥ 0 for both conditions
        let conditions = [(bounds[i].1 - part[i].0, -rates[i].0), (part[i].1 - bounds[i].0, rates[i].1)];
        for (room, slope) in conditions {
            let (room, slope) = (room as i128, slope as i128);
            if slope == 0 && room < 0 {
                return false;
            }
            if slope > 0 && less(from, (-room, slope)) {
                from = (-room, slope);
            }
            if slope < 0 {
                let end = (room, -slope);
                if until.is_none_or(|until| less(end, until)) {
                    until = Some(end);
                }
            }
        }
    }
    until.is_none_or(|until| !less(until, from))
}

/// Some part touches a forbidden box of its location.
pub fn forbidden_touched(plant: &Plant, faces: &Faces) -> bool {
    (0..plant.sizes.forbidden).any(|f| {
        let forbidden = plant.forbidden(f);
        let location = plant.location(forbidden.location);
        parts(plant, faces, forbidden.location)
            .iter()
            .any(|part| touches(part, &ranges(location.rates), &ranges(location.invariant), &ranges(forbidden.bounds)))
    })
}
