//! Random pairs of models of which the second is the first with further cuts (document 02, T-12), and such as break
//! this: all of them pass their questions.

use crate::inputs::draft::Draft;
use crate::inputs::generate::{helped_model, random_cut};
use crate::inputs::random::Random;
use crate::reference::model::{Plant, RATE};

/// In how many of the locations without a cut one is tried.
pub const FURTHER: [&str; 4] = ["in no location", "in one location", "in some locations", "in all locations"];

/// A cut: location, variable and value.
pub type Known = (usize, usize, i32);

/// A plant with further cuts, any that are allowed: its words, and in how many locations. Where a cut of a location is
/// known, it is often that one.
pub fn refined(random: &mut Random, first: &Plant, known: &[Known]) -> (Vec<i32>, &'static str) {
    let mut draft = Draft::of(first);
    let uncut: Vec<usize> = (0..first.sizes.locations).filter(|&l| first.cut(l).is_none()).collect();
    let way = random.pick(&[0, 1, 1, 1, 2, 2, 3, 3]);
    let chosen: Vec<usize> = match way {
        0 => vec![],
        1 => uncut.get(random.below(uncut.len().max(1))).copied().into_iter().collect(),
        2 => uncut.into_iter().filter(|_| random.chance(1, 2)).collect(),
        _ => uncut,
    };
    for l in chosen {
        let cut = random_cut(random, &draft, l);
        let known = known.iter().find(|cut| cut.0 == l && random.chance(2, 3));
        draft.cuts.extend(known.copied().or(cut));
    }
    (draft.words(), FURTHER[way])
}

/// A plant to start from: as it is, or with all or some of its cuts taken away, then often without its forbidden boxes,
/// so that it is safe. Its words, and the plant's own cuts.
pub fn to_refine(random: &mut Random, plant: &Plant) -> (Vec<i32>, Vec<Known>) {
    let mut draft = Draft::of(plant);
    let known = draft.cuts.clone();
    if random.chance(2, 3) {
        let all = random.chance(1, 2);
        draft.cuts.retain(|_| !all && random.chance(1, 2));
        if random.chance(1, 2) {
            draft.forbidden.clear();
        }
    }
    (draft.words(), known)
}

/// A plant without forbidden boxes, so that it is safe, and the same with cuts that keep apart what one box on a wall
/// holds together, where such are found soon: the words of both.
pub fn kept_apart(random: &mut Random) -> (Vec<i32>, Vec<i32>) {
    let second = Draft { forbidden: vec![], ..helped_model(random) };
    let first = Draft { cuts: vec![], ..second.clone() };
    (first.words(), second.words())
}

type Break = fn(&mut Random, &Draft, &mut Draft) -> bool;

/// Ways in which the second is not the first with further cuts; false if one cannot be made.
pub const UNREFINED: [(&str, Break); 4] = [
    ("a cut less", cut_less),
    ("another value of a cut", other_value),
    ("another variable of a cut", other_variable),
    ("another rate", other_rate),
];

/// A plant with further cuts but for one thing, if it passes its questions, and which.
pub fn unrefined(random: &mut Random, first: &Plant) -> Option<(Vec<i32>, &'static str)> {
    let words = refined(random, first, &[]).0;
    let mut draft = Draft::of(&Plant::from_words(&words).expect("a plant with further cuts passes its questions"));
    let (name, make) = random.pick(&UNREFINED);
    let made = make(random, &Draft::of(first), &mut draft);
    let words = draft.words();
    (made && Plant::from_words(&words).is_ok()).then_some((words, name))
}

/// Where among the second's cuts one of the first's stands.
fn cut_of_first(random: &mut Random, first: &Draft, second: &Draft) -> Option<usize> {
    let cut = *first.cuts.get(random.below(first.cuts.len().max(1)))?;
    second.cuts.iter().position(|own| *own == cut)
}

fn cut_less(random: &mut Random, first: &Draft, second: &mut Draft) -> bool {
    cut_of_first(random, first, second).map(|at| second.cuts.remove(at)).is_some()
}

fn other_value(random: &mut Random, first: &Draft, second: &mut Draft) -> bool {
    cut_of_first(random, first, second).map(|at| second.cuts[at].2 += random.pick(&[-1, 1])).is_some()
}

fn other_variable(random: &mut Random, first: &Draft, second: &mut Draft) -> bool {
    let Some(at) = cut_of_first(random, first, second) else {
        return false;
    };
    second.cuts[at].1 = (second.cuts[at].1 + 1) % second.n;
    second.n > 1
}

fn other_rate(random: &mut Random, _: &Draft, second: &mut Draft) -> bool {
    let l = random.below(second.locations.len());
    let rate = &mut second.locations[l].rates[0];
    *rate -= 1;
    *rate >= -RATE
}
