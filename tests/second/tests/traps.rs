//! Does the comparison find wrong programs? A third, literal decider in which one mistake
//! at a time can be switched on (document 01's traps, T-02's start parts, T-06's delays, T-10's reset ranges, T-12's
//! pieces and others); each must be found within 6,000 random models, and the decider without a mistake must agree. So
//! must some other ways to compute, of which T-06 makes no mistakes.

use std::cell::Cell;

use second::c_calls::exports::answer;
use second::held::compare::{Comparison, Tested};
use second::inputs::damage::field_places;
use second::inputs::starts::any_crosses;
use second::reference::files::{file_of_words, model_of_file, parse_table, table_file, CUT, HEAD, HEAD_2};
use second::reference::host;
use second::reference::model::{ask_head, Edition, Model, Plant, Switch, EDITION_AT, LEVEL, SWITCH_HEAD};

const NONE: u8 = 0;
const ROUNDS_TOWARDS_ZERO: u8 = 1;
const FAST_RATE_FOR_LATEST: u8 = 2;
const DROPS_DELAY_ZERO: u8 = 3;
const READS_NEW_FACES: u8 = 4;
const DELAY_FOR_EACH_VARIABLE: u8 = 5;
const ENDLESS_UNBOUNDS_ALL: u8 = 6;
const ENDLESS_BEFORE_NONE: u8 = 7;
const ONLY_THE_WALLS_VARIABLE: u8 = 8;
const LANDS_WITHOUT_GUARD: u8 = 9;
const LANDS_WITHOUT_RESET_BOX: u8 = 10;
const LANDS_OUTSIDE_TARGET: u8 = 11;
const FORGETS_MASK: u8 = 12;
const FORBIDDEN_NOT_CUT: u8 = 13;
const SAFE_BEFORE_UNKNOWN: u8 = 14;
const NO_LAST_PASS: u8 = 15;
const SKIPS_OWN_WALL: u8 = 16;
const STARTS_UNDER_FLAG_ZERO: u8 = 17;
const LANDS_ON_THE_OTHER_SIDE: u8 = 18;
const CHECKS_WITHOUT_STARTS: u8 = 19;
const JOINS_WITHOUT_CUTTING: u8 = 20;
const VALUE_IN_FIRST_PIECE_ALONE: u8 = 21;
const OWN_WALLS_BY_THEIR_SIDE: u8 = 22;
const SWITCHES_FROM_FIRST_PIECE_ALONE: u8 = 23;
const FIRST_VARIABLE_LEFT_OUT: u8 = 24;
const TOUCHES_FROM_FIRST_PIECE_ALONE: u8 = 25;
const STEPS_FROM_THE_WHOLE_FACE: u8 = 26;
const LANDS_ON_FIRST_PIECE_ALONE: u8 = 27;
const STEPS_FROM_WHOLE_STARTS: u8 = 28;
const TOUCHES_FROM_WHOLE_STARTS: u8 = 29;
const CHECKS_WITH_WHOLE_STARTS: u8 = 30;
const EMPTY_START_AS_A_PART: u8 = 31;
const START_BEHIND_THE_WALL_WHOLE: u8 = 32;
const START_CLAMPED_TO_THE_WALL: u8 = 33;
const START_INSIDE_STILL_ASKED: u8 = 34;
const START_RANGE_NOT_ASKED: u8 = 35;
const START_ORDER_NOT_ASKED: u8 = 36;
const LAST_VARIABLE_LEFT_OUT: u8 = 37;
const NEXT_VARIABLE_LEFT_OUT: u8 = 38;
const ENDS_EXCHANGED: u8 = 39;
const WHOLE_RANGE_INSIDE: u8 = 40;
const EMPTY_AT_ITS_EARLIEST: u8 = 41;
const LATEST_AS_EARLIEST: u8 = 42;
const INVARIANT_OF_THE_NEXT_LOCATION: u8 = 43;
const ENDLESS_NOT_CUT: u8 = 44;
const CUT_AT_A_WHOLE_DELAY: u8 = 45;
const STARTS_ALONE_CUT: u8 = 46;
const PIECES_ALONE_CUT: u8 = 47;
const CHECKS_WITHOUT_THE_CUT: u8 = 48;
const LOW_OF_A_RANGE_ALONE: u8 = 49;
const HIGH_OF_A_RANGE_ALONE: u8 = 50;
const INSIDE_OF_A_RANGE_ALONE: u8 = 51;
const RANGE_OUTSIDE_TARGET: u8 = 52;
const RANGE_CUT_TO_THE_SOURCE: u8 = 53;
const RANGE_AND_OLD_LEVELS: u8 = 54;
const RANGE_OF_AN_UNMASKED_D: u8 = 55;
const RANGE_ON_THE_PIECE_OF_ITS_LOW: u8 = 56;
const MASKED_WITHOUT_GUARD: u8 = 57;
const CHECKS_WITH_LOWS_ALONE: u8 = 58;
const D_NOT_ASKED_IN_EDITION_2: u8 = 59;
const UNMASKED_D_ASKED_IN_EDITION_2: u8 = 60;
const D_ALONE_ASKED_IN_EDITION_1: u8 = 61;
const TAG_9_AS_EDITION_1: u8 = 62;
const TAG_9_REFUSED: u8 = 63;
const FIRST_TAG_NOT_ASKED: u8 = 64;
const TRAPS: u8 = 64;

// No mistakes. An exact low is never above the invariant's high, nor a high below its low: the order of cutting
// and rounding is not seen. What a part reaches is what its two halves reach. A delay at which a box inside the
// invariant is met is one that all variables can live with. The wall's own condition asks more of d than d's.
const CUTS_BEFORE_ROUNDING: u8 = 101;
const CUTS_THE_START: u8 = 102;
const TOUCHES_BY_DELAYS_INSIDE: u8 = 103;
const WALLS_VARIABLE_LEFT_OUT: u8 = 104;
const HARMLESS: [u8; 4] = [CUTS_BEFORE_ROUNDING, CUTS_THE_START, TOUCHES_BY_DELAYS_INSIDE, WALLS_VARIABLE_LEFT_OUT];

thread_local! {
    /// The mistake that is switched on.
    static TRAP: Cell<u8> = const { Cell::new(NONE) };
    /// Is it check that computes?
    static CHECKING: Cell<bool> = const { Cell::new(false) };
}

fn on(trap: u8) -> bool {
    TRAP.get() == trap
}

type Ranges = Vec<(i64, i64)>;
type Faces = Vec<Vec<Option<Ranges>>>;

fn ranges(bounds: &[i32]) -> Ranges {
    bounds.chunks(2).map(|r| (r[0] as i64, r[1] as i64)).collect()
}

fn cut(x: &Ranges, y: &Ranges) -> Option<Ranges> {
    let both: Ranges = x.iter().zip(y).map(|(x, y)| (x.0.max(y.0), x.1.min(y.1))).collect();
    both.iter().all(|r| r.0 <= r.1).then_some(both)
}

type Time = (i64, i64);

/// Earliest and latest (None: endless).
fn delays(p: i64, q: i64, a: i64, c: i64, b: i64) -> Option<(Time, Option<Time>)> {
    let none = (b < p && a >= 0) || (b > q && c <= 0);
    let endless = (a <= 0 && 0 <= c) || (b < p && c >= 0) || (b > q && a <= 0);
    if on(ENDLESS_BEFORE_NONE) && none && endless {
        return Some(((0, 1), None));
    }
    if none || (on(DROPS_DELAY_ZERO) && p <= b && b <= q) {
        return None;
    }
    let first = if b < p {
        (p - b, -a)
    } else if b > q {
        (b - q, c)
    } else {
        (0, 1)
    };
    let last = if endless {
        None
    } else if c < 0 {
        Some((q - b, if on(FAST_RATE_FOR_LATEST) { -a } else { -c }))
    } else {
        Some((b - p, if on(FAST_RATE_FOR_LATEST) { c } else { a }))
    };
    Some((first, last))
}

/// Is variable i asked whether it can live with the delays to a wall of d?
fn asked(i: usize, d: usize, n: usize) -> bool {
    !(on(ONLY_THE_WALLS_VARIABLE)
        || on(CHECKS_WITHOUT_THE_CUT) && CHECKING.get()
        || on(FIRST_VARIABLE_LEFT_OUT) && i == 0
        || on(LAST_VARIABLE_LEFT_OUT) && i == n - 1
        || on(NEXT_VARIABLE_LEFT_OUT) && i == (d + 1) % n
        || on(WALLS_VARIABLE_LEFT_OUT) && i == d)
}

/// The delays that one variable can live with.
fn lived_with(part: (i64, i64), rate: (i64, i64), range: (i64, i64)) -> Option<(Time, Option<Time>)> {
    if on(ENDS_EXCHANGED) {
        return times(part, rate, (range.1, range.0));
    }
    if on(WHOLE_RANGE_INSIDE) {
        return times((part.1, part.0), (rate.1, rate.0), range);
    }
    let (from, until) = times(part, rate, range)?;
    let whole = |t: Time| if on(CUT_AT_A_WHOLE_DELAY) { (t.0 / t.1, 1) } else { t };
    Some((from, until.map(whole)))
}

/// The delays to wall b of d that all variables can live with in `room`.
fn delays_inside(part: &Ranges, rates: &Ranges, room: &Ranges, d: usize, b: i64) -> Option<(Time, Option<Time>)> {
    let (mut from, mut until) = delays(part[d].0, part[d].1, rates[d].0, rates[d].1, b)?;
    let (earliest, endless) = (from, until.is_none());
    for i in (0..part.len()).filter(|&i| asked(i, d, part.len())) {
        let Some((first, last)) = lived_with(part[i], rates[i], room[i]) else {
            return on(EMPTY_AT_ITS_EARLIEST).then_some((earliest, Some(earliest)));
        };
        (from, until) = common((from, until), (first, last));
        if on(LATEST_AS_EARLIEST) {
            from = last.unwrap_or(from);
        }
    }
    if on(ENDLESS_NOT_CUT) && endless {
        return Some((from, None));
    }
    let empty = until.is_some_and(|u| u.0 * from.1 < from.0 * u.1);
    match (empty, on(EMPTY_AT_ITS_EARLIEST)) {
        (false, _) => Some((from, until)),
        (true, true) => Some((earliest, Some(earliest))),
        (true, false) => None,
    }
}

/// What two intervals have in common, which may be nothing.
fn common(x: (Time, Option<Time>), y: (Time, Option<Time>)) -> (Time, Option<Time>) {
    let later = |x: Time, y: Time| x.0 * y.1 > y.0 * x.1;
    let from = if later(y.0, x.0) { y.0 } else { x.0 };
    let until = match (x.1, y.1) {
        (Some(x), Some(y)) => Some(if later(x, y) { y } else { x }),
        (x, y) => x.or(y),
    };
    (from, until)
}

fn wall_step(
    part: &Ranges,
    rates: &Ranges,
    inv: &Ranges,
    (d, b): (usize, i64),
    (first, last): (Time, Option<Time>),
) -> Option<Ranges> {
    let mut out = Vec::new();
    for i in 0..part.len() {
        if i == d {
            out.push((b, b));
            continue;
        }
        let ((p, q), (a, c)) = (part[i], rates[i]);
        let value = |x: i64, rate: i64, t: Time| (x * t.1 + rate * t.0, t.1);
        let low = if a < 0 { last.map(|t| value(p, a, t)) } else { Some(value(p, a, first)) };
        let high = if c > 0 { last.map(|t| value(q, c, t)) } else { Some(value(q, c, first)) };
        let (mut low, mut high) = (low, high);
        if on(ENDLESS_UNBOUNDS_ALL) && last.is_none() {
            (low, high) = (None, None);
        }
        if on(CUTS_BEFORE_ROUNDING) {
            let beyond = low.is_some_and(|v| v.0 > inv[i].1 * v.1) || high.is_some_and(|v| v.0 < inv[i].0 * v.1);
            if beyond {
                return None;
            }
        }
        let floor = |v: (i64, i64)| if on(ROUNDS_TOWARDS_ZERO) { v.0 / v.1 } else { v.0.div_euclid(v.1) };
        let roof = |v: (i64, i64)| if on(ROUNDS_TOWARDS_ZERO) { v.0 / v.1 } else { -(-v.0).div_euclid(v.1) };
        out.push((low.map_or(inv[i].0, floor), high.map_or(inv[i].1, roof)));
    }
    cut(&out, inv)
}

fn join(held: &mut Option<Ranges>, new: Ranges) {
    *held = Some(match held {
        None => new,
        Some(held) => held.iter().zip(&new).map(|(x, y)| (x.0.min(y.0), x.1.max(y.1))).collect(),
    });
}

/// What of a start box is a part.
fn start_part(start: Ranges, inv: &Ranges, taken_whole: bool) -> Option<Ranges> {
    if taken_whole || on(CHECKS_WITH_WHOLE_STARTS) && CHECKING.get() {
        return Some(start);
    }
    if on(EMPTY_START_AS_A_PART) {
        return Some(start.iter().zip(inv).map(|(x, y)| (x.0.max(y.0), x.1.min(y.1))).collect());
    }
    if on(START_CLAMPED_TO_THE_WALL) {
        return Some(start.iter().zip(inv).map(|(x, y)| (x.0.clamp(y.0, y.1), x.1.clamp(y.0, y.1))).collect());
    }
    let behind = on(START_BEHIND_THE_WALL_WHOLE).then(|| start.clone());
    cut(&start, inv).or(behind)
}

/// The parts that the start box is: one, or none.
fn starts_of(plant: &Plant, l: usize, taken_whole: bool) -> Vec<Ranges> {
    let location = plant.location(l);
    if !location.started && !on(STARTS_UNDER_FLAG_ZERO) {
        return vec![];
    }
    let Some(whole) = start_part(ranges(location.start), &ranges(location.invariant), taken_whole) else {
        return vec![];
    };
    match location.cut {
        Some(at) if on(CUTS_THE_START) => {
            let (mut low, mut high) = (whole.clone(), whole);
            low[at.variable].1 = low[at.variable].1.min(at.value as i64);
            high[at.variable].0 = high[at.variable].0.max(at.value as i64);
            [low, high].into_iter().filter(|half| half.iter().all(|r| r.0 <= r.1)).collect()
        }
        _ => vec![whole],
    }
}

/// Pieces of a face of location l.
fn count(plant: &Plant, l: usize) -> usize {
    1 + plant.cut(l).is_some() as usize
}

/// The pieces of a face that are present: the parts that it is.
fn present(plant: &Plant, faces: &Faces, l: usize, face: usize) -> Vec<Ranges> {
    let count = count(plant, l);
    let pieces: Vec<Ranges> = faces[l][face * count..][..count].iter().flatten().cloned().collect();
    if !on(STEPS_FROM_THE_WHOLE_FACE) {
        return pieces;
    }
    let mut whole = None;
    pieces.into_iter().for_each(|piece| join(&mut whole, piece));
    whole.into_iter().collect()
}

/// Gives a step's result on a face to its pieces.
fn give(plant: &Plant, new: &mut Faces, l: usize, face: usize, result: Ranges) {
    let (d, count) = (face / 2, count(plant, l));
    let Some(at) = plant.cut(l) else {
        return join(&mut new[l][face], result);
    };
    if at.variable == d {
        let piece = if on(OWN_WALLS_BY_THEIR_SIDE) { face % 2 } else { 0 };
        return join(&mut new[l][face * count + piece], result);
    }
    let (mut low, mut high) = (result.clone(), result.clone());
    let value = at.value as i64;
    low[at.variable].1 = low[at.variable].1.min(value);
    high[at.variable].0 = high[at.variable].0.max(value + on(VALUE_IN_FIRST_PIECE_ALONE) as i64);
    for (piece, half) in [low, high].into_iter().enumerate() {
        if half[at.variable].0 <= half[at.variable].1 {
            join(&mut new[l][face * count + piece], if on(JOINS_WITHOUT_CUTTING) { result.clone() } else { half });
        }
    }
}

/// The parts of location l: the start part, numbered 0, then those of each face.
fn parts_of(plant: &Plant, faces: &Faces, l: usize, number: usize, starts: bool) -> Vec<Ranges> {
    match (number, starts) {
        (0, true) => starts_of(plant, l, on(STEPS_FROM_WHOLE_STARTS)),
        (0, false) => vec![],
        _ => present(plant, faces, l, number - 1),
    }
}

/// The wall step from a part of location l, numbered as above, to a face.
fn step_to(plant: &Plant, l: usize, number: usize, part: &Ranges, face: usize) -> Option<Ranges> {
    let location = plant.location(l);
    let (rates, inv) = (ranges(location.rates), ranges(location.invariant));
    let next = plant.location((l + 1) % plant.sizes.locations);
    let room = if on(INVARIANT_OF_THE_NEXT_LOCATION) { ranges(next.invariant) } else { inv.clone() };
    let (d, b) = (face / 2, location.invariant[face] as i64);
    let uncut = on(STARTS_ALONE_CUT) && number > 0 || on(PIECES_ALONE_CUT) && number == 0;
    let times = if uncut {
        delays(part[d].0, part[d].1, rates[d].0, rates[d].1, b)
    } else {
        delays_inside(part, &rates, &room, d, b)
    };
    wall_step(part, &rates, &inv, (d, b), times?)
}

fn pass(plant: &Plant, before: &Faces, starts: bool) -> Faces {
    let faces = 2 * plant.sizes.n;
    let mut new = before.clone();
    for l in 0..plant.sizes.locations {
        for number in 0..=faces {
            let parts = parts_of(plant, if on(READS_NEW_FACES) { &new } else { before }, l, number, starts);
            for part in parts {
                for face in (0..faces).filter(|face| !on(SKIPS_OWN_WALL) || face + 1 != number) {
                    if let Some(reached) = step_to(plant, l, number, &part, face) {
                        give(plant, &mut new, l, face, reached);
                    }
                }
            }
        }
    }
    switch_steps(plant, before, &mut new);
    new
}

/// Joins every switch step to the new faces.
fn switch_steps(plant: &Plant, before: &Faces, new: &mut Faces) {
    for s in 0..plant.sizes.switches {
        let switch = plant.switch(s);
        let from = if on(READS_NEW_FACES) { &*new } else { before };
        let mut parts = present(plant, from, switch.source, 2 * switch.d + switch.source_side);
        if on(SWITCHES_FROM_FIRST_PIECE_ALONE) {
            parts.truncate(1);
        }
        for part in parts {
            let Some(landed) = switch_step(plant, &switch, part) else { continue };
            let inv = ranges(plant.location(switch.target).invariant);
            let side = if on(LANDS_ON_THE_OTHER_SIDE) && inv[switch.d].0 == inv[switch.d].1 {
                1 - switch.target_side
            } else {
                switch.target_side
            };
            let face = 2 * switch.d + side;
            if on(LANDS_ON_FIRST_PIECE_ALONE) {
                join(&mut new[switch.target][face * count(plant, switch.target)], landed);
            } else {
                let low = if on(RANGE_ON_THE_PIECE_OF_ITS_LOW) { of_its_low(plant, &switch, &landed) } else { None };
                give(plant, new, switch.target, face, low.unwrap_or(landed));
            }
        }
    }
}

/// What is below the value of the target's cut, if a range of the cut variable reaches it.
fn of_its_low(plant: &Plant, switch: &Switch, landed: &Ranges) -> Option<Ranges> {
    let at = plant.cut(switch.target)?;
    let (low, high) = landed[at.variable];
    let value = at.value as i64;
    let mut below = landed.clone();
    below[at.variable].1 = value - 1;
    (switch.masked(at.variable) && low < value && value <= high).then_some(below)
}

/// What a masked variable is set to, of its reset range.
fn set_to(range: (i64, i64), old: (i64, i64)) -> (i64, i64) {
    if on(LOW_OF_A_RANGE_ALONE) || on(CHECKS_WITH_LOWS_ALONE) && CHECKING.get() {
        (range.0, range.0)
    } else if on(HIGH_OF_A_RANGE_ALONE) {
        (range.1, range.1)
    } else if on(INSIDE_OF_A_RANGE_ALONE) && range.0 + 1 < range.1 {
        (range.0 + 1, range.1 - 1)
    } else if on(RANGE_AND_OLD_LEVELS) {
        (range.0.min(old.0), range.1.max(old.1))
    } else {
        range
    }
}

/// What a switch lands from one part of the source's face.
fn switch_step(plant: &Plant, switch: &Switch, part: Ranges) -> Option<Ranges> {
    let mut guard = ranges(switch.guard);
    let mut reset = ranges(switch.reset);
    let mut room = ranges(plant.location(switch.target).invariant);
    let source = ranges(plant.location(switch.source).invariant);
    for i in (0..plant.sizes.n).filter(|&i| i != switch.d && switch.masked(i)) {
        if on(MASKED_WITHOUT_GUARD) {
            guard[i] = part[i];
        }
        if on(RANGE_OUTSIDE_TARGET) {
            room[i] = reset[i];
        }
        if on(RANGE_CUT_TO_THE_SOURCE) {
            room[i] = source[i];
        }
    }
    let mut moved = if on(LANDS_WITHOUT_GUARD) { part } else { cut(&part, &guard)? };
    for i in 0..plant.sizes.n {
        if switch.masked(i) && !on(FORGETS_MASK) {
            moved[i] = set_to(reset[i], moved[i]);
        }
        if i == switch.d && !switch.masked(i) && on(RANGE_OF_AN_UNMASKED_D) {
            moved[i] = reset[i];
        }
        if on(RANGE_AND_OLD_LEVELS) && switch.masked(i) {
            reset[i] = moved[i];
        }
    }
    if !on(LANDS_WITHOUT_RESET_BOX) {
        moved = cut(&moved, &reset)?;
    }
    if on(LANDS_OUTSIDE_TARGET) {
        return Some(moved);
    }
    cut(&moved, &room)
}

/// The t from `from` to `until` (None: no end) that satisfy both conditions of one variable.
fn times(part: (i64, i64), rate: (i64, i64), bounds: (i64, i64)) -> Option<(Time, Option<Time>)> {
    let (mut from, mut until): (Time, Option<Time>) = ((0, 1), None);
    for (room, slope) in [(bounds.1 - part.0, -rate.0), (part.1 - bounds.0, rate.1)] {
        if slope == 0 && room < 0 {
            return None;
        }
        if slope > 0 && -room * from.1 > from.0 * slope {
            from = (-room, slope);
        }
        if slope < 0 && until.is_none_or(|u: Time| room * u.1 < u.0 * -slope) {
            until = Some((room, -slope));
        }
    }
    until.is_none_or(|u| from.0 * u.1 <= u.0 * from.1).then_some((from, until))
}

fn touches(part: &Ranges, rates: &Ranges, inv: &Ranges, bounds: &Ranges) -> bool {
    let bounds = if on(FORBIDDEN_NOT_CUT) { Some(bounds.clone()) } else { cut(bounds, inv) };
    let Some(bounds) = bounds else { return false };
    let (mut from, mut until): (Time, Option<Time>) = ((0, 1), None);
    for i in 0..part.len() {
        let Some(allowed) = times(part[i], rates[i], bounds[i]) else { return false };
        (from, until) = common((from, until), allowed);
        if on(TOUCHES_BY_DELAYS_INSIDE) {
            let Some(allowed) = times(part[i], rates[i], inv[i]) else { return false };
            (from, until) = common((from, until), allowed);
        }
    }
    on(DELAY_FOR_EACH_VARIABLE) || until.is_none_or(|u| from.0 * u.1 <= u.0 * from.1)
}

fn touched(plant: &Plant, faces: &Faces, starts: bool) -> bool {
    (0..plant.sizes.forbidden).any(|f| {
        let forbidden = plant.forbidden(f);
        let location = plant.location(forbidden.location);
        let l = forbidden.location;
        let mut parts = if starts { starts_of(plant, l, on(TOUCHES_FROM_WHOLE_STARTS)) } else { vec![] };
        for face in 0..plant.sizes.faces() {
            let pieces = present(plant, faces, l, face);
            let taken = if on(TOUCHES_FROM_FIRST_PIECE_ALONE) { 1 } else { pieces.len() };
            parts.extend(pieces.into_iter().take(taken));
        }
        let (rates, inv) = (ranges(location.rates), ranges(location.invariant));
        parts.into_iter().any(|part| touches(&part, &rates, &inv, &ranges(forbidden.bounds)))
    })
}

fn to_words(plant: &Plant, faces: &Faces) -> Vec<i32> {
    let mut words = Vec::new();
    for face in faces.iter().flatten() {
        words.push(face.is_some() as i32);
        match face {
            Some(face) => words.extend(face.iter().flat_map(|r| [r.0 as i32, r.1 as i32])),
            None => words.extend(vec![0; 2 * plant.sizes.n]),
        }
    }
    words
}

/// The model file's words, which has passed the questions before 11.
fn words_of_file(file: &[u8]) -> Vec<i32> {
    let places = field_places(file);
    let fields = places.windows(2).map(|field| (file[field[0]], &file[field[0] + 3..field[1]]));
    let word = |bytes: &[u8]| i32::from_be_bytes([bytes[0], bytes[1], bytes[2], bytes[3]]);
    let (mut words, mut cuts) = (Vec::new(), Vec::new());
    for (tag, payload) in fields {
        let list = if tag == CUT { &mut cuts } else { &mut words };
        list.extend(payload.chunks_exact(4).map(word));
    }
    words.insert(EDITION_AT, if file[0] == HEAD_2 { 2 } else { 1 });
    let first = words.len();
    words.extend([-1, 0].repeat(words[1] as usize));
    cuts.chunks_exact(3).for_each(|cut| words[first + 2 * cut[0] as usize..][..2].copy_from_slice(&cut[1..]));
    words
}

/// The file with what is not asked of its start boxes put right: the range, or the order, where a box that
/// is out of order is no start.
fn put_right(file: &[u8]) -> Vec<u8> {
    let mut words = words_of_file(file);
    let (sizes, _) = ask_head(&words).expect("13 comes after the head's questions");
    for l in 0..sizes.locations {
        let start = &mut words[sizes.location_at(l) + 4 * sizes.n..sizes.location_at(l + 1)];
        let out_of_order = start[1..].chunks_exact(2).any(|r| r[0] > r[1]);
        if start[0] == 1 && on(START_RANGE_NOT_ASKED) {
            start[1..].iter_mut().for_each(|end| *end = (*end).clamp(-LEVEL, LEVEL));
        } else if start[0] == 1 && out_of_order {
            start.fill(0);
        }
    }
    file_of_words(&sizes, &words)
}

/// The file with every range of a masked d replaced by its low.
fn with_single_d(file: &[u8]) -> Vec<u8> {
    let mut words = words_of_file(file);
    let (sizes, _) = ask_head(&words).expect("16 comes after the head's questions");
    for s in 0..sizes.switches {
        let (d, mask) = (words[sizes.switch_at(s) + 2], words[sizes.switch_at(s) + SWITCH_HEAD - 1]);
        if (0..sizes.n as i32).contains(&d) && mask >> d & 1 == 1 {
            let at = sizes.reset_at(s, d as usize);
            words[at + 1] = words[at];
        }
    }
    file_of_words(&sizes, &words)
}

/// Some switch has no single reset value for its d, which is unmasked.
fn range_of_an_unmasked_d(plant: &Plant) -> bool {
    let mut switches = (0..plant.sizes.switches).map(|s| plant.switch(s));
    switches.any(|s| !s.masked(s.d) && s.reset[2 * s.d] < s.reset[2 * s.d + 1])
}

/// The file with another first tag.
fn with_tag(tag: u8, file: &[u8]) -> Vec<u8> {
    [&[tag], &file[1..]].concat()
}

/// The model of a file, with the mistakes that the first tag can have.
fn model_of(file: &[u8]) -> Result<Model, u32> {
    match file.first() {
        Some(&HEAD_2) if on(TAG_9_REFUSED) => Err(1),
        Some(&HEAD_2) if on(TAG_9_AS_EDITION_1) => asked_of(&with_tag(HEAD, file)),
        Some(&tag) if on(FIRST_TAG_NOT_ASKED) && tag != HEAD_2 => asked_of(&with_tag(HEAD, file)),
        _ => asked_of(file),
    }
}

/// The model of a file, with the mistakes that the questions 13 and 16 can have.
fn asked_of(file: &[u8]) -> Result<Model, u32> {
    let read = model_of_file(file);
    let first = file.first().copied();
    match &read {
        Ok(model) if on(START_INSIDE_STILL_ASKED) && any_crosses(&model.plant()) => Err(13),
        Err(13) if on(START_RANGE_NOT_ASKED) || on(START_ORDER_NOT_ASKED) => model_of_file(&put_right(file)),
        Err(16) if on(D_NOT_ASKED_IN_EDITION_2) && first == Some(HEAD_2) => model_of_file(&with_single_d(file)),
        Err(16) if on(D_ALONE_ASKED_IN_EDITION_1) && first == Some(HEAD) => model_of_file(&with_tag(HEAD_2, file)),
        Ok(model) if on(UNMASKED_D_ASKED_IN_EDITION_2) && model.edition == Edition::Two => {
            if range_of_an_unmasked_d(&model.plant()) {
                Err(16)
            } else {
                read
            }
        }
        _ => read,
    }
}

fn decide(model: &[u8], buffer: &mut [u8], limit: u32) -> u64 {
    CHECKING.set(false);
    let model = match model_of(model) {
        Ok(model) => model,
        Err(number) => return (number as u64) << 32,
    };
    let plant = model.plant();
    if buffer.len() < plant.table_file_room() {
        return 39 << 32;
    }
    let pieces = |l| vec![None; 2 * plant.sizes.n * count(&plant, l)];
    let mut faces: Faces = (0..plant.sizes.locations).map(pieces).collect();
    let mut k = 0;
    let code = loop {
        let hit = touched(&plant, &faces, true);
        let next = pass(&plant, &faces, true);
        if hit && !(on(SAFE_BEFORE_UNKNOWN) && next == faces) {
            break 101;
        }
        if on(NO_LAST_PASS) && k == limit {
            break 102;
        }
        if next == faces {
            break 100;
        }
        if k == limit {
            break 102;
        }
        k += 1;
        faces = next;
    };
    let file = table_file(&plant, &to_words(&plant, &faces));
    buffer[..file.len()].copy_from_slice(&file);
    code << 32 | k as u64
}

fn check(model: &[u8], table: &[u8]) -> u64 {
    CHECKING.set(true);
    let model = match model_of(model) {
        Ok(model) => model,
        Err(number) => return number as u64,
    };
    let plant = model.plant();
    let table = match parse_table(&plant, table) {
        Ok(table) => table,
        Err(number) => return number as u64,
    };
    let starts = !on(CHECKS_WITHOUT_STARTS);
    let faces = second::reference::plain::from_words(&plant, &table);
    if pass(&plant, &faces, starts) != faces {
        return 33;
    }
    if touched(&plant, &faces, starts) {
        return 34;
    }
    100
}

/// How many random models were compared until the mistake was found; None if it was not.
fn found_after(trap: u8, models: u64) -> Option<u64> {
    TRAP.set(trap);
    let tested = Tested { decide, check, answer };
    let mut comparison = Comparison::new(tested, 77);
    for number in 0..models {
        if comparison.random_case(2).is_err() {
            return Some(number + 1);
        }
    }
    None
}

#[test]
fn the_third_decider_without_a_mistake_agrees() {
    assert_eq!(found_after(NONE, 1_500), None);
}

#[test]
fn what_makes_no_difference_is_not_found() {
    for harmless in HARMLESS {
        assert_eq!(found_after(harmless, 1_000), None, "{harmless}");
    }
}

#[test]
fn every_mistake_is_found() {
    for trap in 1..=TRAPS {
        let found = found_after(trap, 6_000);
        println!("mistake {trap}: found with model {found:?}");
        assert!(found.is_some(), "mistake {trap} is not found");
    }
}

/// Wrong treatment of lent memory and numbers.
#[test]
fn wrong_memory_and_numbers_are_found() {
    fn clears_on_refusal(model: &[u8], buffer: &mut [u8], limit: u32) -> u64 {
        let number = host::decide(model, buffer, limit);
        if number >> 32 < 100 {
            buffer.fill(0);
        }
        number
    }
    fn clears_the_rest(model: &[u8], buffer: &mut [u8], limit: u32) -> u64 {
        buffer.fill(0);
        host::decide(model, buffer, limit)
    }
    fn no_file_for_unknown(model: &[u8], buffer: &mut [u8], limit: u32) -> u64 {
        let before = buffer.to_vec();
        let number = host::decide(model, buffer, limit);
        if number >> 32 == 101 {
            buffer.copy_from_slice(&before);
        }
        number
    }
    fn plain_refusal(model: &[u8], buffer: &mut [u8], limit: u32) -> u64 {
        let number = host::decide(model, buffer, limit);
        if number >> 32 < 100 {
            number >> 32
        } else {
            number
        }
    }
    fn eight_for_six(model: &[u8], table: &[u8]) -> u64 {
        let number = host::check(model, table);
        if number == 6 {
            8
        } else {
            number
        }
    }
    for wrong in [clears_on_refusal, clears_the_rest, no_file_for_unknown, plain_refusal] {
        let mut comparison = Comparison::new(Tested { decide: wrong, check: host::check, answer }, 5);
        assert!(comparison.all(300, 600).is_err());
    }
    let mut comparison = Comparison::new(Tested { decide: host::decide, check: eight_for_six, answer }, 5);
    assert!(comparison.all(300, 600).is_err());
    // And the right ones are not.
    let mut comparison = Comparison::new(Tested { decide: host::decide, check: host::check, answer }, 5);
    comparison.all(300, 600).unwrap();
}
