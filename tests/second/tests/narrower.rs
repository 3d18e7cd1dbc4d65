//! A narrower plant (document 02, T-13): the relation on random pairs, what it means for runs, and fixed pairs that
//! break one of its conditions.

use std::collections::BTreeMap;

use second::fixed::narrower::{kept, needed};
use second::held::simulate::{is_forbidden, may_move, may_start, random_run, Configuration, Move};
use second::inputs::draft::{Draft, LocationDraft, SwitchDraft};
use second::inputs::examples::{at_rest, plant_p};
use second::inputs::generate::{extreme_model, random_model};
use second::inputs::narrowing::{narrowed, widened, BREAKS, WAYS};
use second::inputs::random::Random;
use second::reference::analysis::{run, Answer};
use second::reference::ceiling;
use second::reference::checker::checker;
use second::reference::files::{model_file, table_file};
use second::reference::host;
use second::reference::model::Plant;
use second::reference::narrower::{broken, narrower, Condition};

/// A random model, now and then with its levels and rates at both ends.
fn any_model(random: &mut Random) -> Vec<i32> {
    let make = if random.chance(1, 6) { extreme_model } else { random_model };
    make(random).words()
}

/// A draft made of a plant has its words.
#[test]
fn drafts_of_plants() {
    let mut random = Random::new(50);
    for _ in 0..1_000 {
        let words = any_model(&mut random);
        assert_eq!(Draft::of(&Plant::from_words(&words).unwrap()).words(), words);
    }
}

/// What is made narrower is narrower, in every way, and so is what is made narrower twice; a plant is narrower than
/// itself.
#[test]
fn narrowed_plants_are_narrower() {
    let mut random = Random::new(51);
    let mut ways: BTreeMap<&str, u32> = BTreeMap::new();
    let mut back = 0;
    for _ in 0..6_000 {
        let words = any_model(&mut random);
        let first = Plant::from_words(&words).unwrap();
        let once = narrowed(&mut random, &first);
        let second = Plant::from_words(&once.words).expect("a narrower plant passes its questions");
        let twice = narrowed(&mut random, &second);
        let third = Plant::from_words(&twice.words).expect("a narrower plant passes its questions");
        assert!(narrower(&first, &first), "{words:?}");
        assert_eq!(broken(&first, &second), [], "{words:?} {:?}", once.words);
        assert_eq!(broken(&first, &third), [], "{words:?} {:?}", twice.words);
        once.ways.iter().for_each(|way| *ways.entry(way).or_default() += 1);
        back += !narrower(&second, &first) as u32;
    }
    assert!(ways.len() == WAYS.len() && ways.values().all(|&count| count > 100), "{ways:?}");
    assert!(back > 2_000, "{back}");
}

/// What breaks one condition is not narrower, by that condition alone.
#[test]
fn one_condition_broken() {
    let mut random = Random::new(52);
    let mut breaks: BTreeMap<&str, u32> = BTreeMap::new();
    for _ in 0..20_000 {
        let words = any_model(&mut random);
        let first = Plant::from_words(&words).unwrap();
        let Some((changed, name, condition)) = widened(&mut random, &first) else {
            continue;
        };
        let second = Plant::from_words(&changed).unwrap();
        assert_eq!(broken(&first, &second), [condition], "{name}: {words:?} {changed:?}");
        assert!(!narrower(&first, &second));
        *breaks.entry(name).or_default() += 1;
    }
    assert!(breaks.len() == BREAKS.len() && breaks.values().all(|&count| count > 100), "{breaks:?}");
}

/// Another n or another L: nothing else can be asked.
#[test]
fn other_sizes() {
    for (n, locations, wanted) in
        [(1, 1, vec![Condition::Variables]), (2, 2, vec![Condition::Locations]), (3, 1, vec![Condition::Variables])]
    {
        let mut draft = at_rest(n);
        draft.locations = vec![draft.locations[0].clone(); locations];
        let (first, second) = (plant_p().words(), draft.words());
        assert_eq!(broken(&Plant::from_words(&first).unwrap(), &Plant::from_words(&second).unwrap()), wanted);
    }
}

/// A move of a run of the second is one of the first; a switch by one of the first's.
fn is_move_of(first: &Plant, denominator: i64, from: &Configuration, by: Move, to: &Configuration) -> bool {
    match by {
        Move::Delay(_) => may_move(first, denominator, from, by, to),
        Move::Switch(_) => (0..first.sizes.switches).any(|s| may_move(first, denominator, from, Move::Switch(s), to)),
    }
}

/// What the relation is for: every run of the second is a run of the first, with its switches by switches of the first,
/// and meets a forbidden box of the first wherever it meets one of the second.
#[test]
fn runs_of_the_second_are_runs_of_the_first() {
    let mut random = Random::new(53);
    let (mut runs, mut delays, mut switches, mut met) = (0, 0, 0, 0);
    for _ in 0..4_000 {
        let words = any_model(&mut random);
        let first = Plant::from_words(&words).unwrap();
        let made = narrowed(&mut random, &first).words;
        let second = Plant::from_words(&made).unwrap();
        let denominator = random.pick(&[1, 2, 3, 6, 60]);
        let Some(run) = random_run(&second, &mut random, denominator, 10) else {
            continue;
        };
        runs += 1;
        assert!(may_start(&first, denominator, &run.first), "{words:?} {made:?}");
        let mut at = &run.first;
        for (by, to) in &run.moves {
            assert!(is_move_of(&first, denominator, at, *by, to), "{words:?} {made:?}");
            *(if matches!(by, Move::Delay(_)) { &mut delays } else { &mut switches }) += 1;
            at = to;
        }
        let visited = [&run.first].into_iter().chain(run.moves.iter().map(|(_, to)| to));
        for at in visited.filter(|at| is_forbidden(&second, denominator, at)) {
            assert!(is_forbidden(&first, denominator, at), "{words:?} {made:?}");
            met += 1;
        }
    }
    assert!(runs > 2_000 && delays > 5_000 && switches > 500 && met > 100, "{runs} {delays} {switches} {met}");
}

/// The answer under the ceiling, its passes and its table.
fn answered(plant: &Plant) -> (Answer, u32, Vec<i32>) {
    let (mut table, mut work) = (vec![0; plant.table_words()], vec![0; plant.table_words()]);
    let limit = ceiling::of_plant(plant).min(u32::MAX as u64) as u32;
    let (answer, passes) = run(plant, limit, &mut table, &mut work);
    (answer, passes, table)
}

/// Each condition is needed: of a pair that breaks it alone the first is safe, and its table is refused for the second.
/// One is more than needed: a forbidden box inside two of the first's together.
#[test]
fn each_condition_is_needed() {
    let mut conditions = Vec::new();
    for case in needed() {
        let words = [case.first.words(), case.second.words()];
        let [first, second] = [0, 1].map(|place| Plant::from_words(&words[place]).unwrap());
        assert_eq!(broken(&first, &second), [case.condition], "{}", case.label);
        let (answer, _, table) = answered(&first);
        assert_eq!(answer, Answer::Safe, "{}", case.label);
        let by_words = checker(&words[1], &table).err().unwrap_or(100);
        let by_file = host::check(&model_file(&words[1]), &table_file(&first, &table)) as u32;
        let (answer, passes, _) = answered(&second);
        assert_eq!([by_words, by_file], case.refused, "{}", case.label);
        assert_eq!((answer.code(), passes), case.answered, "{}", case.label);
        if case.label != "a box across two" {
            assert!(case.refused.iter().all(|&number| number < 100), "{}", case.label);
        }
        conditions.push(case.condition);
    }
    conditions.dedup();
    use Condition::*;
    assert_eq!(conditions, [Variables, Locations, Invariants, Cuts, Rates, Starts, Switches, Forbidden]);
}

/// Where all conditions are kept, the promise holds.
#[test]
fn kept_conditions() {
    for case in kept() {
        let words = [case.first.words(), case.second.words()];
        let [first, second] = [0, 1].map(|place| Plant::from_words(&words[place]).unwrap());
        assert!(narrower(&first, &second), "{}", case.label);
        let ((answer, passes, table), (of_second, more, _)) = (answered(&first), answered(&second));
        assert_eq!((answer, of_second), (Answer::Safe, Answer::Safe), "{}", case.label);
        assert_eq!([passes, more], case.passes, "{}", case.label);
        assert_eq!(checker(&words[1], &table), Ok(()), "{}", case.label);
    }
}

/// A pair of plants of which one switch leads from a corner of location 0 to one of location 1, in the second with a
/// change. x of both is from these levels to 10.
fn corners(lows: [i32; 2], change: fn(&mut SwitchDraft)) -> [Vec<i32>; 2] {
    let location = |low: i32, start: Option<Vec<i32>>| LocationDraft {
        invariant: vec![low, 10, 0, 10],
        rates: vec![1, 1, 1, 2],
        start,
    };
    let switch = SwitchDraft {
        source: 0,
        target: 1,
        d: 0,
        source_side: 1,
        target_side: 1,
        mask: 0,
        guard: vec![10; 4],
        reset: vec![10; 4],
    };
    let mut changed = switch.clone();
    change(&mut changed);
    let locations = vec![location(lows[0], Some(vec![0, 10, 0, 10])), location(lows[1], None)];
    [switch, changed]
        .map(|switch| Draft { n: 2, locations: locations.clone(), switches: vec![switch], ..Draft::default() }.words())
}

/// d and the sides are asked for too, and with equal boxes nothing hangs on them. Equal guards of another d meet in a
/// corner; equal boxes of another side are on a wall of zero width. A table at rest has the same on both walls there,
/// by a delay of 0.
#[test]
fn another_d_or_side_with_the_same_boxes() {
    let other_d = corners([0, 0], |switch| switch.d = 1);
    let other_source_side = corners([10, 0], |switch| switch.source_side = 0);
    let other_target_side = corners([0, 10], |switch| switch.target_side = 0);
    for words in [other_d, other_source_side, other_target_side] {
        let [first, second] = [0, 1].map(|place| Plant::from_words(&words[place]).unwrap());
        assert_eq!(broken(&first, &second), [Condition::Switches]);
        let (answer, _, table) = answered(&first);
        assert_eq!((answer, checker(&words[1], &table)), (Answer::Safe, Ok(())));
        assert!(table[first.location_places(1)].contains(&1) && table == answered(&second).2);
    }
}
