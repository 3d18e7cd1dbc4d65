//! Reset ranges (document 02, T-10): how they lie, the same model with other ranges or in the other edition, and
//! random models whose answer hangs on them.

use crate::inputs::draft::Draft;
use crate::inputs::generate::{
    close, find_box, random_plant, touched_in, with_found_box, with_starts_and_cuts, HELP_PASSES, MOST_HELPED,
};
use crate::inputs::random::Random;
use crate::reference::model::{Cut, Edition, Location, Plant, Switch, EDITION_AT, LEVEL};

/// How the reset ranges of a model lie; each must come up in a comparison. A range is one of a masked variable
/// other than d, with a low below its high.
pub const RANGE_KINDS: [&str; 22] = [
    "edition 1",
    "edition 2, and nothing masked",
    "edition 2, and single values alone",
    "edition 2, and a range",
    "edition 2, and a range, without a cut",
    "edition 2, and a range, with a cut",
    "a range inside the target's invariant",
    "a range as wide as the target's invariant",
    "a range that sticks out below",
    "a range that sticks out above",
    "a range that sticks out on both sides",
    "a range that only meets the wall",
    "a range outside the invariant",
    "a range with an end at -1,000,000",
    "a range with an end at 1,000,000",
    "ranges of two variables of one switch",
    "a range and a single value in one switch",
    "a range beside a masked d",
    "a range beside an unmasked d",
    "a range on both sides of the target's cut",
    "in edition 2, the reset box of an unmasked d no single value",
    "words that edition 1 refuses by 16",
];

/// The low and high of variable i in the reset box.
fn reset_range(switch: &Switch, i: usize) -> [i32; 2] {
    [switch.reset[2 * i], switch.reset[2 * i + 1]]
}

/// The variables of a switch that have a range.
fn ranged(switch: &Switch) -> Vec<usize> {
    let is = |&i: &usize| i != switch.d && switch.masked(i) && switch.reset[2 * i] < switch.reset[2 * i + 1];
    (0..switch.reset.len() / 2).filter(is).collect()
}

fn switches<'a>(plant: &Plant<'a>) -> Vec<Switch<'a>> {
    (0..plant.sizes.switches).map(|s| plant.switch(s)).collect()
}

/// Some switch has a range.
pub fn any_range(plant: &Plant) -> bool {
    switches(plant).iter().any(|switch| !ranged(switch).is_empty())
}

/// The kinds that a range of variable i is of, in a target: those at 6 to 14, and the one at 19.
fn kinds_of_one([low, high]: [i32; 2], target: &Location, i: usize) -> ([bool; 9], bool) {
    let (from, to) = (target.invariant[2 * i], target.invariant[2 * i + 1]);
    let outside = high < from || to < low;
    let meets = (low < from && high == from) || (high > to && low == to);
    let sticks_out = !outside && !meets;
    let across = |cut: Cut| cut.variable == i && low.max(from) < cut.value && cut.value < high.min(to);
    let kinds = [
        from <= low && high <= to,
        (low, high) == (from, to),
        sticks_out && low < from && high <= to,
        sticks_out && low >= from && high > to,
        sticks_out && low < from && high > to,
        meets,
        outside,
        low == -LEVEL,
        high == LEVEL,
    ];
    (kinds, target.cut.is_some_and(across))
}

/// The kinds of `RANGE_KINDS` that a model is of.
pub fn range_kinds(plant: &Plant) -> Vec<&'static str> {
    let mut is = [false; RANGE_KINDS.len()];
    let all = switches(plant);
    let (second, masked) = (plant.edition == Edition::Two, all.iter().any(|switch| switch.mask != 0));
    let any = any_range(plant);
    is[0] = !second;
    is[1] = second && !masked;
    is[2] = second && masked && !any;
    is[3] = second && any;
    is[4] = second && any && !plant.any_cut();
    is[5] = second && any && plant.any_cut();
    for switch in &all {
        let target = plant.location(switch.target);
        let ranges = ranged(switch);
        for &i in &ranges {
            let (kinds, across) = kinds_of_one(reset_range(switch, i), &target, i);
            kinds.iter().enumerate().for_each(|(kind, found)| is[6 + kind] |= found);
            is[19] |= across;
        }
        let others = (0..plant.sizes.n).filter(|&i| i != switch.d && switch.masked(i)).count();
        is[15] |= ranges.len() > 1;
        is[16] |= !ranges.is_empty() && ranges.len() < others;
        is[17] |= !ranges.is_empty() && switch.masked(switch.d);
        is[18] |= !ranges.is_empty() && !switch.masked(switch.d);
        let of_d = reset_range(switch, switch.d);
        is[20] |= second && !switch.masked(switch.d) && of_d[0] < of_d[1];
    }
    let other = in_other_edition(plant);
    is[21] = second && Plant::from_words(&other).err() == Some(16);
    RANGE_KINDS.into_iter().zip(is).filter(|(_, is)| *is).map(|(kind, _)| kind).collect()
}

/// The model's words in the other edition, which they need not be allowed in.
pub fn in_other_edition(plant: &Plant) -> Vec<i32> {
    let mut words = plant.words().to_vec();
    words[EDITION_AT] = plant.edition.other().word();
    words
}

/// The model's words with other reset ranges for the masked variables other than d.
pub fn with_ranges(plant: &Plant, change: impl Fn([i32; 2]) -> [i32; 2]) -> Vec<i32> {
    let mut words = plant.words().to_vec();
    for s in 0..plant.sizes.switches {
        let switch = plant.switch(s);
        for i in (0..plant.sizes.n).filter(|&i| i != switch.d && switch.masked(i)) {
            words[plant.sizes.reset_at(s, i)..][..2].copy_from_slice(&change(reset_range(&switch, i)));
        }
    }
    words
}

/// With the low end of every range alone.
pub fn lows_alone([low, _]: [i32; 2]) -> [i32; 2] {
    [low, low]
}

/// With the high end of every range alone.
pub fn highs_alone([_, high]: [i32; 2]) -> [i32; 2] {
    [high, high]
}

/// With what is strictly inside every range, where anything is.
pub fn inside_alone([low, high]: [i32; 2]) -> [i32; 2] {
    if low + 1 < high {
        [low + 1, high - 1]
    } else {
        [low, high]
    }
}

/// With every range wider by one on both sides, as far as there are levels.
pub fn one_wider([low, high]: [i32; 2]) -> [i32; 2] {
    [(low - 1).max(-LEVEL), (high + 1).min(LEVEL)]
}

/// A random model of edition 2 with ranges and one forbidden box, which is touched by what the ranges hold beyond
/// their lows, beyond their highs or beyond both, or is not touched and would be if they were wider, if such a box is
/// found soon.
pub fn ranged_model(random: &mut Random) -> Draft {
    let draw = |random: &mut Random| {
        let draft = random_plant(random, Edition::Two);
        with_starts_and_cuts(random, draft)
    };
    with_found_box(random, draw, telling_box)
}

/// Location and box of which the ranges tell whether it is touched.
fn telling_box(random: &mut Random, draft: &Draft) -> Option<(usize, Vec<i32>)> {
    if draft.locations.len() > MOST_HELPED {
        return None;
    }
    let words = draft.words();
    let plant = Plant::from_words(&words).expect("a random model passes its questions");
    if !any_range(&plant) {
        return None;
    }
    let table = |change: fn([i32; 2]) -> [i32; 2]| {
        let words = with_ranges(&plant, change);
        let plant = Plant::from_words(&words).expect("a model passes its questions with other ranges too");
        let mut table = vec![0; plant.table_words()];
        close(&plant, &mut table, HELP_PASSES).then_some(table)
    };
    let whole = table(|range| range)?;
    let touched = |table: &[i32], l: usize, bounds: &[i32]| touched_in(&plant, table, l, bounds);
    match random.below(7) {
        0 => {
            let lows = table(lows_alone)?;
            find_box(random, draft, |l, bounds| touched(&whole, l, bounds) && !touched(&lows, l, bounds))
        }
        1 => {
            let highs = table(highs_alone)?;
            find_box(random, draft, |l, bounds| touched(&whole, l, bounds) && !touched(&highs, l, bounds))
        }
        2 | 3 => {
            let (lows, highs) = (table(lows_alone)?, table(highs_alone)?);
            let at_an_end = |l: usize, bounds: &[i32]| touched(&lows, l, bounds) || touched(&highs, l, bounds);
            find_box(random, draft, |l, bounds| touched(&whole, l, bounds) && !at_an_end(l, bounds))
        }
        _ => {
            let wider = table(one_wider)?;
            find_box(random, draft, |l, bounds| touched(&wider, l, bounds) && !touched(&whole, l, bounds))
        }
    }
}
