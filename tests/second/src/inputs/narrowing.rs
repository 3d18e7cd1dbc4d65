//! Random pairs of models for document 02's T-13: a narrower plant than a given one, made in ways that are named, and
//! one that breaks exactly one of the conditions. All of them pass their questions.

use crate::inputs::draft::{Draft, SwitchDraft};
use crate::inputs::generate::{random_range, random_switch};
use crate::inputs::random::Random;
use crate::reference::model::{Edition, Plant, LEVEL, MAX_FORBIDDEN, MAX_SWITCHES, RATE};
use crate::reference::narrower::Condition;

/// A plant made of another one: its words, and what was done.
pub struct Made {
    pub words: Vec<i32>,
    pub ways: Vec<&'static str>,
}

type Way = fn(&mut Random, &mut Draft);

/// Ways to make a plant narrower. After each of them a draft passes its questions if it did before: ends of d on a
/// wall are single, and what is single stays.
pub const WAYS: [(&str, Way); 18] = [
    ("rates shrunk", rates_shrunk),
    ("rates to one value", rates_to_points),
    ("guards shrunk", guards_shrunk),
    ("reset boxes shrunk", resets_shrunk),
    ("reset ranges to single values, in edition 1", in_edition_1),
    ("in edition 2", in_edition_2),
    ("start boxes shrunk", starts_shrunk),
    ("start boxes dropped", starts_dropped),
    ("start boxes put behind a wall", starts_behind),
    ("start boxes stretched behind walls", starts_stretched),
    ("forbidden boxes shrunk", forbidden_shrunk),
    ("forbidden boxes dropped", forbidden_dropped),
    ("forbidden boxes split", forbidden_split),
    ("forbidden boxes in another order", |random, draft| shuffle(random, &mut draft.forbidden)),
    ("switches dropped", switches_dropped),
    ("switches doubled", switches_doubled),
    ("switches in another order", |random, draft| shuffle(random, &mut draft.switches)),
    ("everything shrunk", everything_shrunk),
];

/// How many ways are tried for one that changes something.
const TRIES: usize = 6;

/// A random plant that is narrower than this one: in no way, in one or in several.
pub fn narrowed(random: &mut Random, first: &Plant) -> Made {
    let mut made = Made { words: first.words().to_vec(), ways: Vec::new() };
    let mut draft = Draft::of(first);
    for _ in 0..random.pick(&[0, 1, 1, 2, 2, 3, 5]) {
        narrow_once(random, &mut draft, &mut made);
    }
    made
}

/// One way more, the first of some that changes something.
fn narrow_once(random: &mut Random, draft: &mut Draft, made: &mut Made) {
    for _ in 0..TRIES {
        let (name, way) = random.pick(&WAYS);
        way(random, draft);
        let words = draft.words();
        if words != made.words {
            made.words = words;
            made.ways.push(name);
            return;
        }
    }
}

// ---------------------------------------------------------------- boxes

/// Some ranges of a box become ranges inside them.
fn shrink(random: &mut Random, bounds: &mut [i32]) {
    for range in bounds.chunks_exact_mut(2) {
        if random.chance(1, 2) {
            let inner = random_range(random, range[0], range[1]);
            range.copy_from_slice(&inner);
        }
    }
}

/// A range becomes a single value of it, often an end.
fn to_point(random: &mut Random, range: &mut [i32]) {
    let (low, high) = (range[0], range[1]);
    let any = random.range(low as i64, high as i64) as i32;
    range.fill(random.pick(&[low, high, any]));
}

/// Some ranges of a box become single values of them.
fn to_points(random: &mut Random, bounds: &mut [i32]) {
    for range in bounds.chunks_exact_mut(2) {
        if random.chance(2, 3) {
            to_point(random, range);
        }
    }
}

/// Some of a list, or now and then all of it.
fn some_of<T>(random: &mut Random, list: &mut [T], mut change: impl FnMut(&mut Random, &mut T)) {
    let all = random.chance(1, 2);
    for one in list {
        if all || random.chance(1, 3) {
            change(random, one);
        }
    }
}

fn shuffle<T>(random: &mut Random, list: &mut [T]) {
    for place in 1..list.len() {
        list.swap(place, random.below(place + 1));
    }
}

// ---------------------------------------------------------------- ways

fn rates_shrunk(random: &mut Random, draft: &mut Draft) {
    some_of(random, &mut draft.locations, |random, location| shrink(random, &mut location.rates));
}

fn rates_to_points(random: &mut Random, draft: &mut Draft) {
    some_of(random, &mut draft.locations, |random, location| to_points(random, &mut location.rates));
}

fn guards_shrunk(random: &mut Random, draft: &mut Draft) {
    some_of(random, &mut draft.switches, |random, switch| shrink(random, &mut switch.guard));
}

/// Of a masked d the reset value is single, and stays; of an unmasked one no question asks for more than order.
fn resets_shrunk(random: &mut Random, draft: &mut Draft) {
    some_of(random, &mut draft.switches, |random, switch| shrink(random, &mut switch.reset));
}

fn in_edition_1(random: &mut Random, draft: &mut Draft) {
    for switch in &mut draft.switches {
        let masked = (0..draft.n).filter(|i| switch.mask >> i & 1 == 1);
        for i in masked.collect::<Vec<_>>() {
            to_point(random, &mut switch.reset[2 * i..2 * i + 2]);
        }
    }
    draft.edition = Edition::One;
}

fn in_edition_2(_: &mut Random, draft: &mut Draft) {
    draft.edition = Edition::Two;
}

fn starts_shrunk(random: &mut Random, draft: &mut Draft) {
    some_of(random, &mut draft.locations, |random, location| {
        if let Some(start) = &mut location.start {
            shrink(random, start);
        }
    });
}

fn starts_dropped(random: &mut Random, draft: &mut Draft) {
    some_of(random, &mut draft.locations, |_, location| location.start = None);
}

/// Start boxes, of locations without one too, behind a wall: flag 1, and no start part. None where the wall is at the
/// end of the levels.
fn starts_behind(random: &mut Random, draft: &mut Draft) {
    let n = draft.n;
    some_of(random, &mut draft.locations, |random, location| {
        let (i, side) = (random.below(n), random.below(2));
        let wall = location.invariant[2 * i + side];
        let levels = if side == 0 { -LEVEL..wall } else { wall + 1..LEVEL + 1 };
        if levels.is_empty() {
            return;
        }
        let mut start = location.start.clone().unwrap_or_else(|| location.invariant.clone());
        let behind = random_range(random, levels.start, levels.end - 1);
        start[2 * i..2 * i + 2].copy_from_slice(&behind);
        location.start = Some(start);
    });
}

/// Ends of start boxes that are on a wall or behind it, further behind it: the start part stays.
fn starts_stretched(random: &mut Random, draft: &mut Draft) {
    some_of(random, &mut draft.locations, |random, location| {
        let Some(start) = &mut location.start else {
            return;
        };
        for (i, wall) in location.invariant.chunks_exact(2).enumerate() {
            let behind = start[2 * i + 1] < wall[0] || wall[1] < start[2 * i];
            if start[2 * i] <= wall[0] && !behind {
                start[2 * i] = random.range(-LEVEL as i64, wall[0] as i64) as i32;
            }
            if start[2 * i + 1] >= wall[1] && !behind {
                start[2 * i + 1] = random.range(wall[1] as i64, LEVEL as i64) as i32;
            }
        }
    });
}

fn forbidden_shrunk(random: &mut Random, draft: &mut Draft) {
    some_of(random, &mut draft.forbidden, |random, (_, bounds)| shrink(random, bounds));
}

fn forbidden_dropped(random: &mut Random, draft: &mut Draft) {
    draft.forbidden.retain(|_| random.chance(1, 2));
}

/// One to three boxes inside each forbidden box, in its place, as far as there is room.
fn forbidden_split(random: &mut Random, draft: &mut Draft) {
    for f in 0..draft.forbidden.len() {
        let whole = draft.forbidden[f].clone();
        for _ in 0..random.below(3).min(MAX_FORBIDDEN - draft.forbidden.len()) {
            let (location, mut bounds) = whole.clone();
            shrink(random, &mut bounds);
            draft.forbidden.push((location, bounds));
        }
        shrink(random, &mut draft.forbidden[f].1);
    }
}

fn switches_dropped(random: &mut Random, draft: &mut Draft) {
    draft.switches.retain(|_| random.chance(1, 2));
}

/// Some switches once more, with smaller boxes or with the same: both rest on one.
fn switches_doubled(random: &mut Random, draft: &mut Draft) {
    for s in 0..draft.switches.len() {
        if random.chance(1, 2) && draft.switches.len() < MAX_SWITCHES {
            let mut switch = draft.switches[s].clone();
            shrink(random, &mut switch.guard);
            shrink(random, &mut switch.reset);
            draft.switches.push(switch);
        }
    }
}

fn everything_shrunk(random: &mut Random, draft: &mut Draft) {
    for way in [rates_shrunk, guards_shrunk, resets_shrunk, starts_shrunk, forbidden_shrunk] {
        way(random, draft);
    }
}

// ---------------------------------------------------------------- one condition broken

/// Breaks the condition in a draft that is narrower than the first, and no other; false if it cannot. That it is broken
/// follows from the first's records alone: what is made is wider than all of them, or stands where none of them does.
type Break = fn(&mut Random, &Draft, &mut Draft) -> bool;

pub const BREAKS: [(&str, Condition, Break); 16] = [
    ("a location more", Condition::Locations, location_added),
    ("another invariant", Condition::Invariants, invariant_moved),
    ("another value of a cut", Condition::Cuts, cut_moved),
    ("a cut less", Condition::Cuts, cut_dropped),
    ("a cut more", Condition::Cuts, cut_added),
    ("a rate one wider", Condition::Rates, rate_wider),
    ("a start part one wider", Condition::Starts, start_wider),
    ("a start part where there was none", Condition::Starts, start_added),
    ("a guard one wider", Condition::Switches, guard_wider),
    ("a reset box one wider", Condition::Switches, reset_wider),
    ("another mask", Condition::Switches, mask_flipped),
    ("another target", Condition::Switches, target_moved),
    ("another source side", Condition::Switches, side_moved),
    ("a switch more", Condition::Switches, switch_added),
    ("a forbidden box one wider", Condition::Forbidden, forbidden_wider),
    ("a forbidden box in another location", Condition::Forbidden, forbidden_elsewhere),
];

/// A plant that is narrower than this one but for one condition, with the break and the condition; None if the break
/// cannot be made, or not so that the questions are passed.
pub fn widened(random: &mut Random, first: &Plant) -> Option<(Vec<i32>, &'static str, Condition)> {
    let words = narrowed(random, first).words;
    let mut draft = Draft::of(&Plant::from_words(&words).expect("a narrower plant passes its questions"));
    let (name, condition, make) = random.pick(&BREAKS);
    let made = make(random, &Draft::of(first), &mut draft);
    let words = draft.words();
    (made && Plant::from_words(&words).is_ok()).then_some((words, name, condition))
}

/// One end of some boxes, one further out than in any of them; None beyond what is allowed.
fn one_beyond<'a>(boxes: impl Iterator<Item = &'a Vec<i32>>, end: usize, most: i32) -> Option<i32> {
    let ends = boxes.map(|bounds| bounds[end]);
    let beyond = if end % 2 == 0 { ends.min()? - 1 } else { ends.max()? + 1 };
    (beyond.abs() <= most).then_some(beyond)
}

fn location_added(random: &mut Random, _: &Draft, second: &mut Draft) -> bool {
    let mut location = second.locations[random.below(second.locations.len())].clone();
    location.start = None;
    second.locations.push(location);
    true
}

/// A wall of a location one further out, and no start there.
fn invariant_moved(random: &mut Random, _: &Draft, second: &mut Draft) -> bool {
    let l = random.below(second.locations.len());
    let end = random.below(2 * second.n);
    second.locations[l].start = None;
    second.locations[l].invariant[end] += [-1, 1][end % 2];
    true
}

fn cut_moved(random: &mut Random, _: &Draft, second: &mut Draft) -> bool {
    if second.cuts.is_empty() {
        return false;
    }
    let cut = random.below(second.cuts.len());
    second.cuts[cut].2 += random.pick(&[-1, 1]);
    true
}

fn cut_dropped(random: &mut Random, _: &Draft, second: &mut Draft) -> bool {
    if second.cuts.is_empty() {
        return false;
    }
    second.cuts.remove(random.below(second.cuts.len()));
    true
}

fn cut_added(random: &mut Random, _: &Draft, second: &mut Draft) -> bool {
    let l = random.below(second.locations.len());
    let i = random.below(second.n);
    if second.cuts.iter().any(|cut| cut.0 == l) {
        return false;
    }
    second.cuts.push((l, i, second.locations[l].invariant[2 * i] + 1));
    true
}

fn rate_wider(random: &mut Random, first: &Draft, second: &mut Draft) -> bool {
    let l = random.below(second.locations.len());
    let end = random.below(2 * second.n);
    let Some(beyond) = one_beyond([&first.locations[l].rates].into_iter(), end, RATE) else {
        return false;
    };
    second.locations[l].rates[end] = beyond;
    true
}

/// The start part of a location of the first, by its meaning: None without a start, or where it lies behind a wall.
fn start_part(draft: &Draft, l: usize) -> Option<Vec<i32>> {
    let location = &draft.locations[l];
    let ends = location.start.as_ref()?.iter().zip(&location.invariant).enumerate();
    let part: Vec<i32> = ends.map(|(end, (x, y))| if end % 2 == 0 { *x.max(y) } else { *x.min(y) }).collect();
    part.chunks_exact(2).all(|range| range[0] <= range[1]).then_some(part)
}

fn start_wider(random: &mut Random, first: &Draft, second: &mut Draft) -> bool {
    let l = random.below(second.locations.len());
    let end = random.below(2 * second.n);
    let Some(mut part) = start_part(first, l) else {
        return false;
    };
    let inside = part[end] != first.locations[l].invariant[end];
    part[end] += [-1, 1][end % 2];
    second.locations[l].start = Some(part);
    inside
}

fn start_added(random: &mut Random, first: &Draft, second: &mut Draft) -> bool {
    let l = random.below(second.locations.len());
    let mut point = second.locations[l].invariant.clone();
    to_points(random, &mut point);
    second.locations[l].start = Some(point);
    start_part(first, l).is_none()
}

/// One of a switch's boxes.
type Bounds = fn(&mut SwitchDraft) -> &mut Vec<i32>;

/// An end of a box of some switch, if there is one, further out than in any switch of the first.
fn switch_box_wider(random: &mut Random, first: &Draft, second: &mut Draft, bounds: Bounds) -> bool {
    if second.switches.is_empty() {
        return false;
    }
    let s = random.below(second.switches.len());
    let end = random.below(2 * second.n);
    let mut switches = first.switches.clone();
    let beyond = one_beyond(switches.iter_mut().map(|switch| &*bounds(switch)), end, LEVEL);
    bounds(&mut second.switches[s])[end] = beyond.unwrap_or(0);
    beyond.is_some()
}

fn guard_wider(random: &mut Random, first: &Draft, second: &mut Draft) -> bool {
    switch_box_wider(random, first, second, |switch| &mut switch.guard)
}

fn reset_wider(random: &mut Random, first: &Draft, second: &mut Draft) -> bool {
    second.edition = Edition::Two;
    switch_box_wider(random, first, second, |switch| &mut switch.reset)
}

/// A switch of this kind in the first: with equal locations, d, sides and mask.
fn any_alike(first: &Draft, own: &SwitchDraft) -> bool {
    let head = |s: &SwitchDraft| (s.source, s.target, s.d, s.source_side, s.target_side, s.mask);
    first.switches.iter().any(|switch| head(switch) == head(own))
}

/// Changes a switch, if there is one, so that none of the first is of its kind.
fn switch_changed(
    random: &mut Random,
    first: &Draft,
    second: &mut Draft,
    change: fn(&mut Random, &mut SwitchDraft, [usize; 2]),
) -> bool {
    if second.switches.is_empty() {
        return false;
    }
    let sizes = [second.n, second.locations.len()];
    let s = random.below(second.switches.len());
    change(random, &mut second.switches[s], sizes);
    !any_alike(first, &second.switches[s])
}

fn mask_flipped(random: &mut Random, first: &Draft, second: &mut Draft) -> bool {
    second.edition = Edition::Two;
    switch_changed(random, first, second, |random, switch, [n, _]| switch.mask ^= 1 << random.below(n))
}

fn target_moved(random: &mut Random, first: &Draft, second: &mut Draft) -> bool {
    switch_changed(random, first, second, |random, switch, [_, locations]| switch.target = random.below(locations))
}

fn side_moved(random: &mut Random, first: &Draft, second: &mut Draft) -> bool {
    let walls: Vec<Vec<i32>> = second.locations.iter().map(|location| location.invariant.clone()).collect();
    let changed = switch_changed(random, first, second, |_, switch, _| switch.source_side = 1 - switch.source_side);
    for switch in &mut second.switches {
        let wall = walls[switch.source][2 * switch.d + switch.source_side];
        switch.guard[2 * switch.d..2 * switch.d + 2].fill(wall);
    }
    changed
}

fn switch_added(random: &mut Random, first: &Draft, second: &mut Draft) -> bool {
    let switch = random_switch(random, second);
    let other = !any_alike(first, &switch);
    second.switches.push(switch);
    other
}

fn forbidden_wider(random: &mut Random, first: &Draft, second: &mut Draft) -> bool {
    if second.forbidden.is_empty() {
        return false;
    }
    let f = random.below(second.forbidden.len());
    let end = random.below(2 * second.n);
    let beyond = one_beyond(first.forbidden.iter().map(|(_, bounds)| bounds), end, LEVEL);
    second.forbidden[f].1[end] = beyond.unwrap_or(0);
    beyond.is_some()
}

fn forbidden_elsewhere(random: &mut Random, first: &Draft, second: &mut Draft) -> bool {
    let l = random.below(second.locations.len());
    let bounds = match second.forbidden.first() {
        Some((_, bounds)) => bounds.clone(),
        None => second.locations[l].invariant.clone(),
    };
    second.forbidden.push((l, bounds));
    first.forbidden.iter().all(|(location, _)| *location != l)
}
