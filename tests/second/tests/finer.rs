//! A cut never hurts (document 02, T-12): the relation on random pairs, tables divided by hand, tables divided wrongly,
//! and plants that are safe by their cut alone.

use std::collections::BTreeMap;

use second::inputs::draft::Draft;
use second::inputs::examples::{plant_p, three_tanks};
use second::inputs::generate::{close, extreme_model, pass_budget, random_model, random_table};
use second::inputs::random::Random;
use second::inputs::refining::{refined, unrefined, FURTHER, UNREFINED};
use second::reference::analysis::{run, Answer};
use second::reference::ceiling;
use second::reference::checker::{ask_table, checker};
use second::reference::finer::{divided, finer};
use second::reference::model::Plant;

/// A random model, now and then with its levels and rates at both ends.
fn any_model(random: &mut Random) -> Vec<i32> {
    let make = if random.chance(1, 6) { extreme_model } else { random_model };
    make(random).words()
}

/// What gets further cuts is finer, once and twice; a plant is finer than itself; and the other way round it is so only
/// where no cut was added.
#[test]
fn further_cuts_are_finer() {
    let mut random = Random::new(71);
    let mut ways: BTreeMap<&str, u32> = BTreeMap::new();
    for _ in 0..4_000 {
        let words = any_model(&mut random);
        let first = Plant::from_words(&words).unwrap();
        let (once, way) = refined(&mut random, &first, &[]);
        let second = Plant::from_words(&once).expect("a plant with further cuts passes its questions");
        let (twice, _) = refined(&mut random, &second, &[]);
        let third = Plant::from_words(&twice).expect("a plant with further cuts passes its questions");
        assert!(finer(&first, &first) && finer(&first, &second) && finer(&first, &third), "{words:?} {twice:?}");
        assert_eq!(finer(&second, &first), words == once, "{words:?} {once:?}");
        *ways.entry(way).or_default() += 1;
    }
    assert!(ways.len() == FURTHER.len() && ways.values().all(|&count| count > 100), "{ways:?}");
}

#[test]
fn what_is_not_finer() {
    let mut random = Random::new(72);
    let mut breaks: BTreeMap<&str, u32> = BTreeMap::new();
    for _ in 0..6_000 {
        let words = any_model(&mut random);
        let first = Plant::from_words(&words).unwrap();
        if let Some((changed, name)) = unrefined(&mut random, &first) {
            assert!(!finer(&first, &Plant::from_words(&changed).unwrap()), "{name}: {words:?} {changed:?}");
            *breaks.entry(name).or_default() += 1;
        }
    }
    assert!(breaks.len() == UNREFINED.len() && breaks.values().all(|&count| count > 100), "{breaks:?}");
}

const GONE: [i32; 5] = [0; 5];

fn there(bounds: [i32; 4]) -> [i32; 5] {
    let [a, b, c, d] = bounds;
    [1, a, b, c, d]
}

/// Plant P with a cut of this variable at 5, and P's table divided.
fn cut_p(variable: usize, table: &[i32]) -> (Vec<i32>, Vec<i32>) {
    let first = plant_p().words();
    let second = Draft { cuts: vec![(0, variable, 5)], ..plant_p() }.words();
    let [first, plant] = [&first, &second].map(|words| Plant::from_words(words).unwrap());
    assert!(finer(&first, &plant));
    let table = divided(&first, &plant, table);
    (second, table)
}

/// P's table, x 0, y 2..5 and x 2..8, y 10, and document 01's wider one, divided by hand at x 5 and at y 5.
#[test]
fn plant_p_divided_by_hand() {
    let own = [there([0, 0, 2, 5]), GONE, GONE, there([2, 8, 10, 10])].concat();
    let wider = [there([0, 0, 2, 10]), there([10, 10, 10, 10]), GONE, there([0, 10, 10, 10])].concat();
    let at_x = |x_0: [i32; 5], x_10: [i32; 5], y_10: [[i32; 5]; 2]| {
        [x_0, GONE, x_10, GONE, GONE, GONE, y_10[0], y_10[1]].concat()
    };
    let own_at_x = at_x(there([0, 0, 2, 5]), GONE, [there([2, 5, 10, 10]), there([5, 8, 10, 10])]);
    let wider_at_x =
        at_x(there([0, 0, 2, 10]), there([10, 10, 10, 10]), [there([0, 5, 10, 10]), there([5, 10, 10, 10])]);
    let own_at_y =
        [there([0, 0, 2, 5]), there([0, 0, 5, 5]), GONE, GONE, GONE, GONE, there([2, 8, 10, 10]), GONE].concat();
    for (variable, table, wanted) in [(0, &own, &own_at_x), (0, &wider, &wider_at_x), (1, &own, &own_at_y)] {
        let (model, table) = cut_p(variable, table);
        assert_eq!(&table, wanted);
        assert_eq!(checker(&model, &table), Ok(()));
    }
    let (model, _) = cut_p(0, &own);
    assert_eq!(checker(&model, &own), Err(20), "not divided: too few words");
    let whole = at_x(there([0, 0, 2, 5]), GONE, [there([2, 8, 10, 10]), GONE]);
    assert_eq!(checker(&model, &whole), Err(32), "not divided: the face as its first piece");
    let half = at_x(there([0, 0, 2, 5]), GONE, [there([2, 5, 10, 10]), GONE]);
    assert_eq!(checker(&model, &half), Err(33), "the second piece left out");
}

/// The answer under the ceiling.
fn answered(words: &[i32]) -> Answer {
    let plant = Plant::from_words(words).unwrap();
    let (mut table, mut work) = (vec![0; plant.table_words()], vec![0; plant.table_words()]);
    let limit = ceiling::of_plant(&plant).min(u32::MAX as u64) as u32;
    run(&plant, limit, &mut table, &mut work).0
}

/// It is one-way: without its cut a safe plant can be unknown, and so with another in its place.
#[test]
fn not_the_other_way_round() {
    let cut = three_tanks(true);
    let (location, _, value) = cut.cuts[0];
    let moved = Draft { cuts: vec![(location, 0, value)], ..cut.clone() };
    let answers = [cut, three_tanks(false), moved].map(|draft| answered(&draft.words()));
    assert_eq!(answers, [Answer::Safe, Answer::Unknown, Answer::Unknown]);
}

/// A way to divide a table, and what it makes of the right division.
type Wrong = fn(&Plant, &Plant, &mut [i32]);

fn each_new_face(
    first: &Plant,
    second: &Plant,
    table: &mut [i32],
    change: impl Fn(&mut [i32], &mut [i32], usize, i32),
) {
    let words = second.sizes.face_words();
    for l in 0..second.sizes.locations {
        let (Some(cut), None) = (second.cut(l), first.cut(l)) else {
            continue;
        };
        for face in (0..second.sizes.faces()).filter(|face| face / 2 != cut.variable) {
            let (up, from) = table[second.face_places(l, face)].split_at_mut(words);
            change(up, from, cut.variable, cut.value);
        }
    }
}

/// Wrong divisions: the pieces exchanged; the second left out; the value in the first alone.
const WRONG: [(&str, Wrong); 3] = [
    ("exchanged", |first, second, table| {
        each_new_face(first, second, table, |up, from, _, _| up.swap_with_slice(from))
    }),
    ("the second left out", |first, second, table| each_new_face(first, second, table, |_, from, _, _| from.fill(0))),
    ("the value in the first alone", |first, second, table| {
        each_new_face(first, second, table, |_, from, variable, value| {
            from[1 + 2 * variable] += (from[0] == 1 && from[1 + 2 * variable] == value) as i32;
        })
    }),
];

/// Accepted tables, divided: all are accepted, and of each wrong division many are refused.
#[test]
fn wrong_divisions_are_refused() {
    let mut random = Random::new(73);
    let (mut tried, mut refused) = (0, [0; WRONG.len()]);
    for _ in 0..4_000 {
        let words = any_model(&mut random);
        let first = Plant::from_words(&words).unwrap();
        let made = refined(&mut random, &first, &[]).0;
        let second = Plant::from_words(&made).unwrap();
        let mut table = random_table(&mut random, &first);
        close(&first, &mut table, pass_budget(&first).min(50));
        if made == words || ask_table(&first, &table).is_err() {
            continue;
        }
        tried += 1;
        let right = divided(&first, &second, &table);
        assert_eq!(ask_table(&second, &right), Ok(()), "{words:?} {made:?} {table:?}");
        for (count, (_, wrong)) in refused.iter_mut().zip(WRONG) {
            let mut table = right.clone();
            wrong(&first, &second, &mut table);
            *count += (table != right && ask_table(&second, &table).is_err()) as u32;
        }
    }
    assert!(tried > 300 && refused.iter().all(|&count| count > 100), "{tried} {refused:?}");
}
