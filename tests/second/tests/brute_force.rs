//! Cross checks on random and on very small models.

use second::held::simulate::{
    is_forbidden, is_reached, is_run, may_move, may_start, random_run, travel, Configuration, Move, Travelled,
};
use second::inputs::damage::damage_table;
use second::inputs::draft::{Draft, LocationDraft, SwitchDraft};
use second::inputs::generate::{
    close, close_by, crossing_model, helped_model, pass_budget, random_model, random_table,
};
use second::inputs::narrowing::narrowed;
use second::inputs::pumps::pump_model;
use second::inputs::random::Random;
use second::inputs::ranges::{
    any_range, highs_alone, in_other_edition, inside_alone, lows_alone, ranged_model, with_ranges,
};
use second::inputs::starts::{any_crosses, table_of_whole_boxes, touched_by_whole_boxes, trimmed};
use second::reference::analysis::{run, run_quick, Answer};
use second::reference::before::{self, lies_inside};
use second::reference::ceiling;
use second::reference::checker::ask_table;
use second::reference::delays::{delays, delays_inside, touches, touches_quick, Delays, End};
use second::reference::fraction::Fraction;
use second::reference::model::{ordered_inside, Edition, Piece, Plant, MAX_BOX};
use second::reference::narrower::narrower;
use second::reference::plain;
use second::reference::steps::{switch_step, wall_step};
use second::reference::tables::{forbidden_touched, pass, well_formed};

/// The delay rule against its meaning: t is a delay exactly if p + a·t ≤ b ≤ q + c·t.
#[test]
fn delays_are_the_times_at_which_the_wall_is_met() {
    let ends = [-3i64, -1, 0, 1, 2];
    let rates = [-3i64, -2, -1, 0, 1, 2, 5];
    let times: Vec<Fraction> = (1..=6).flat_map(|den| (0..=8 * den).map(move |num| Fraction::new(num, den))).collect();
    for &p in &ends {
        for &q in ends.iter().filter(|&&q| p <= q) {
            for &a in &rates {
                for &c in rates.iter().filter(|&&c| a <= c) {
                    for b in -4..=4 {
                        let rule = delays(p, q, a, c, b);
                        for &t in &times {
                            let met = p * t.den + a * t.num <= b * t.den && b * t.den <= q * t.den + c * t.num;
                            let inside = rule.is_some_and(|rule| holds(rule, t));
                            assert_eq!(met, inside, "{p} {q} {a} {c} {b} {t:?} {rule:?}");
                        }
                    }
                }
            }
        }
    }
}

/// A part of two variables, each inside 0..3, with its rates.
struct Small {
    part: [i32; 4],
    rates: [i32; 4],
}

const WALLS: [i32; 4] = [0, 3, 0, 3];

/// Every part of two variables with levels 0..3, with rates of these.
fn all_small() -> Vec<Small> {
    let ordered = |list: &'static [i32]| {
        list.iter().flat_map(move |&low| list.iter().filter(move |&&high| low <= high).map(move |&high| [low, high]))
    };
    let of_one =
        || ordered(&[0, 1, 2, 3]).flat_map(move |part| ordered(&[-2, -1, 0, 1, 3]).map(move |rate| (part, rate)));
    let small = |(x, a): ([i32; 2], [i32; 2]), (y, c): ([i32; 2], [i32; 2])| Small {
        part: [x[0], x[1], y[0], y[1]],
        rates: [a[0], a[1], c[0], c[1]],
    };
    of_one().flat_map(|x| of_one().map(move |y| small(x, y))).collect()
}

/// Delays of sixths, up to 8: all ends of the intervals above are among them.
const SIXTHS: std::ops::RangeInclusive<i64> = 0..=48;

impl Small {
    /// After t sixths variable i can lie in low..high.
    fn can_be(&self, i: usize, (low, high): (i32, i32), t: i64) -> bool {
        let after = |level: i32, rate: i32| 6 * level as i64 + rate as i64 * t;
        after(self.part[2 * i], self.rates[2 * i]) <= 6 * high as i64
            && after(self.part[2 * i + 1], self.rates[2 * i + 1]) >= 6 * low as i64
    }

    /// By its meaning: t sixths are a delay to the wall of d that all variables can live with.
    fn is_delay(&self, d: usize, b: i32, t: i64) -> bool {
        self.can_be(d, (b, b), t) && (0..2).all(|i| self.can_be(i, (0, 3), t))
    }

    /// The wall step's delays by the rule.
    fn delays(&self, d: usize, b: i32) -> Option<Delays> {
        let [p, q, a, c] = [self.part[2 * d], self.part[2 * d + 1], self.rates[2 * d], self.rates[2 * d + 1]];
        let inside = delays_inside(&self.part, &self.rates, &WALLS).expect("a part lies inside its invariant");
        delays(p as i64, q as i64, a as i64, c as i64, b as i64)?.cut_to(inside)
    }

    fn step(&self, d: usize, b: i32) -> Option<[i32; 4]> {
        let mut out = [0; MAX_BOX];
        wall_step(2, &self.part, &self.rates, &WALLS, d, b, &mut out).then(|| [out[0], out[1], out[2], out[3]])
    }
}

fn holds(interval: Delays, t: Fraction) -> bool {
    let in_time = match interval.latest {
        End::At(last) => !last.below(t),
        End::Endless => true,
    };
    in_time && !t.below(interval.earliest)
}

/// T-06: the delays of a wall step are those after which the wall can be met and every variable can be inside,
/// by the rule and by the plain restatement.
#[test]
fn delays_are_those_that_all_can_live_with() {
    let (mut cut, mut emptied) = (0, 0);
    for small in all_small() {
        let [part, rates, walls] = [&small.part, &small.rates, &WALLS].map(|list| plain::ranges(list));
        for face in 0..4 {
            let (d, b) = (face / 2, WALLS[face]);
            let rule = small.delays(d, b);
            let plain = plain::delays(&part, &rates, &walls, d, b as i64);
            let mut on_wall_alone = 0;
            for t in SIXTHS {
                let meant = small.is_delay(d, b, t);
                let in_plain = plain.is_some_and(|(first, last)| {
                    first.0 * 6 <= t as i128 * first.1 && last.is_none_or(|last| t as i128 * last.1 <= last.0 * 6)
                });
                assert_eq!(meant, rule.is_some_and(|rule| holds(rule, Fraction::new(t, 6))));
                assert_eq!(meant, in_plain);
                on_wall_alone += (small.can_be(d, (b, b), t) && !meant) as u32;
            }
            cut += (on_wall_alone > 0 && rule.is_some()) as u32;
            emptied += (on_wall_alone > 0 && rule.is_none()) as u32;
        }
    }
    assert!(cut > 10_000 && emptied > 1_000, "{cut} cut, {emptied} emptied");
}

/// T-06: a wall step's box is the smallest of whole numbers that holds what its delays lead to inside the
/// invariant, variable by variable; it is absent exactly if there is no such delay.
#[test]
fn wall_steps_are_as_narrow_as_their_delays() {
    let floor = |sixths: i64| sixths.div_euclid(6) as i32;
    for small in all_small() {
        for face in 0..4 {
            let (d, b) = (face / 2, WALLS[face]);
            let i = 1 - d;
            let after = |end: usize, t: i64| 6 * small.part[end] as i64 + small.rates[end] as i64 * t;
            let times: Vec<i64> = SIXTHS.filter(|&t| small.is_delay(d, b, t)).collect();
            let low = times.iter().map(|&t| floor(after(2 * i, t).max(0))).min();
            let high = times.iter().map(|&t| -floor(-after(2 * i + 1, t).min(18))).max();
            let mut wanted = [b; 4];
            (wanted[2 * i], wanted[2 * i + 1]) = (low.unwrap_or(0), high.unwrap_or(0));
            assert_eq!(small.step(d, b), (!times.is_empty()).then_some(wanted));
        }
    }
}

/// T-06: what a delay of a run leads to on a wall lies in the wall step's box. Levels and delays are halves.
#[test]
fn runs_to_a_wall_end_in_its_box() {
    let all = all_small();
    let mut random = Random::new(31);
    let levels = |low: i32, high: i32| 2 * low as i64..=2 * high as i64;
    let mut arrivals = 0;
    for _ in 0..1_500 {
        let small = &all[random.below(all.len())];
        let location =
            LocationDraft { invariant: WALLS.to_vec(), rates: small.rates.to_vec(), start: Some(small.part.to_vec()) };
        let words = Draft { n: 2, locations: vec![location], ..Draft::default() }.words();
        let plant = Plant::from_words(&words).unwrap();
        let at = |x: i64, y: i64| Configuration { location: 0, levels: vec![x, y] };
        for (x, y) in
            levels(small.part[0], small.part[1]).flat_map(|x| levels(small.part[2], small.part[3]).map(move |y| (x, y)))
        {
            for (face, level, t) in
                (0..4).flat_map(|face| (0..=6).flat_map(move |l| (0..=12).map(move |t| (face, l, t))))
            {
                let (d, wall) = (face / 2, 2 * WALLS[face] as i64);
                let to = if d == 0 { at(wall, level) } else { at(level, wall) };
                if may_move(&plant, 2, &at(x, y), Move::Delay(t), &to) {
                    let reached = small.step(d, WALLS[face]).expect("a run gets there");
                    let inside = (0..2).all(|i| {
                        2 * reached[2 * i] as i64 <= to.levels[i] && to.levels[i] <= 2 * reached[2 * i + 1] as i64
                    });
                    assert!(inside, "{:?} {:?} to {to:?}: {reached:?}", small.part, small.rates);
                    arrivals += 1;
                }
            }
        }
    }
    assert!(arrivals > 50_000, "{arrivals}");
}

/// T-06: what a part reaches is what its two halves reach, so start parts may be cut to pieces or left whole.
/// Without the cut of the delays the whole reached more now and then.
#[test]
fn halves_reach_what_the_whole_reaches() {
    type Step = fn(usize, &[i32], &[i32], &[i32], usize, i32, &mut [i32; MAX_BOX]) -> bool;
    const ROOM: [i32; 6] = [0, 8, 0, 8, 0, 8];
    let mut random = Random::new(33);
    let (mut reached, mut more_before) = (0, 0);
    for _ in 0..40_000 {
        let mut range = |low: i64, high: i64, width: i64| {
            let from = random.range(low, high);
            [from as i32, random.range(from, high.min(from + width)) as i32]
        };
        let whole = [range(0, 8, 8), range(0, 8, 1), range(0, 8, 1)].concat();
        let rates = [range(-3, 3, 1), range(-3, 3, 1), range(-3, 3, 1)].concat();
        let value = random.range(whole[0] as i64, whole[1] as i64) as i32;
        let (mut below, mut above) = (whole.clone(), whole.clone());
        (below[1], above[0]) = (value, value);
        let face = random.below(6);
        let from = |step: Step, part: &[i32]| {
            let mut out = [0; MAX_BOX];
            step(3, part, &rates, &ROOM, face / 2, ROOM[face], &mut out).then(|| plain::ranges(&out[..6]))
        };
        let halves = |step: Step| match (from(step, &below), from(step, &above)) {
            (below, Some(above)) => plain::hull(&below, &above),
            (below, None) => below,
        };
        assert_eq!(halves(wall_step), from(wall_step, &whole), "{whole:?} at {value}, {rates:?}, face {face}");
        reached += from(wall_step, &whole).is_some() as u32;
        more_before += (halves(before::wall_step) != from(before::wall_step, &whole)) as u32;
    }
    assert!(reached > 10_000 && more_before > 100, "{reached} reached, {more_before} more before");
}

/// T-06: pass by pass, each table lies inside the one with the steps of before; a model is not unknown if it was
/// not before, and some are safe by the cut of their delays.
#[test]
fn delays_inside_only_narrow() {
    let mut random = Random::new(32);
    let (mut narrower, mut helped, mut longer) = (0, 0, 0);
    for number in 0..1_200 {
        let draft = if number % 3 == 0 { pump_model(&mut random) } else { random_model(&mut random) };
        let words = draft.words();
        let plant = Plant::from_words(&words).unwrap();
        let (mut inner, mut outer) = (vec![0; plant.table_words()], vec![0; plant.table_words()]);
        for _ in 0..12 {
            close(&plant, &mut inner, 1);
            close_by(&plant, &mut outer, 1, before::pass);
            assert!(lies_inside(&plant, &inner, &outer), "{words:?}");
        }
        narrower += (inner != outer) as u32;
        let answer = |run: fn(&Plant, u32, &mut [i32], &mut [i32]) -> (Answer, u32)| {
            let (mut table, mut work) = (vec![0; plant.table_words()], vec![0; plant.table_words()]);
            run(&plant, pass_budget(&plant).min(100), &mut table, &mut work)
        };
        let ((now, k), (then, k_then)) = (answer(run_quick), answer(before::run));
        match (now, then) {
            (Answer::Safe, Answer::Unknown) => helped += 1,
            (Answer::Unknown, then) => assert!(then == Answer::Unknown && k_then <= k, "{words:?}"),
            _ => {}
        }
        longer += (now == Answer::Safe && then == Answer::Safe && k_then < k) as u32;
    }
    assert!(narrower > 200 && helped > 100 && longer > 10, "{narrower} narrower, {helped} helped, {longer} longer");
}

/// Three ways to ask for touching.
#[test]
fn touching_agrees_three_ways() {
    let mut random = Random::new(11);
    let mut hits = 0;
    for _ in 0..60_000 {
        let n = 1 + random.below(4);
        let wide = random.pick(&[4, 4, 4, 1000]);
        let mut range = |most: i64| {
            let (x, y) = (random.range(-most, most) as i32, random.range(-most, most) as i32);
            [x.min(y), x.max(y)]
        };
        let mut list = |most: i64| (0..n).flat_map(|_| range(most)).collect::<Vec<i32>>();
        let (part, rates, bounds) = (list(wide), list(wide.min(5)), list(wide));
        let invariant: Vec<i32> = if wide == 4 { list(9) } else { [-1000, 1000].repeat(n) };
        let as_ranges = |list: &[i32]| list.chunks(2).map(|r| (r[0] as i64, r[1] as i64)).collect::<Vec<_>>();
        let answer = touches(n, &part, &rates, &invariant, &bounds);
        assert_eq!(answer, touches_quick(n, &part, &rates, &invariant, &bounds));
        assert_eq!(
            answer,
            plain::touches(&as_ranges(&part), &as_ranges(&rates), &as_ranges(&invariant), &as_ranges(&bounds))
        );
        hits += answer as u32;
    }
    assert!((5_000..55_000).contains(&hits), "{hits}");
}

/// Every random model passes its questions; the quick pass is the literal one; the first
/// index rule; the ceiling; safe tables are accepted; runs of safe models.
#[test]
fn random_models_keep_the_demands() {
    let mut random = Random::new(2);
    let mut answers = [0u32; 3];
    for _ in 0..1_500 {
        let words = random_model(&mut random).words();
        let plant = Plant::from_words(&words).expect("a random model passes");
        let size = plant.table_words();
        let budget = pass_budget(&plant).min(60);
        let (mut table, mut work) = (vec![5; size], vec![6; size]);
        let (answer, k) = run(&plant, budget, &mut table, &mut work);
        let (mut table_2, mut work_2) = (vec![7; size], vec![8; size]);
        assert_eq!(run_quick(&plant, budget, &mut table_2, &mut work_2), (answer, k));
        assert_eq!(table, table_2);

        // The definition: table k by k literal passes, and nothing earlier would have stopped.
        let mut faces = plain::from_words(&plant, &vec![0; size]);
        for _ in 0..k {
            assert!(!plain::forbidden_touched(&plant, &faces));
            let next = plain::pass(&plant, &faces);
            assert_ne!(next, faces);
            faces = next;
        }
        assert_eq!(plain::to_words(&plant, &faces), table);
        let touched = plain::forbidden_touched(&plant, &faces);
        let still = plain::pass(&plant, &faces) == faces;
        let wanted = if touched {
            Answer::Unknown
        } else if still {
            Answer::Safe
        } else {
            assert_eq!(k, budget);
            Answer::Unfinished
        };
        assert_eq!(answer, wanted);
        assert!(well_formed(&plant, &table));
        assert!(k as u64 <= ceiling::of_plant(&plant));
        if answer == Answer::Unfinished {
            assert!((k as u64) < ceiling::of_plant(&plant));
        }
        assert_eq!(ask_table(&plant, &table).is_ok(), answer == Answer::Safe);
        answers[answer as usize] += 1;

        for _ in 0..4 {
            let denominator = random.pick(&[1, 2, 3, 6, 12, 60]);
            let Some(run) = random_run(&plant, &mut random, denominator, 12) else {
                continue;
            };
            assert!(is_run(&plant, &run));
            for at in std::iter::once(&run.first).chain(run.moves.iter().map(|m| &m.1)) {
                if answer == Answer::Safe {
                    assert!(!is_forbidden(&plant, denominator, at));
                    assert!(is_reached(&plant, &table, denominator, at));
                }
            }
        }
    }
    assert!(answers.iter().all(|&count| count > 20), "{answers:?}");
}

/// Unknown: no table is accepted. Random tables, closed under passes, and damaged ones.
#[test]
fn unknown_models_have_no_accepted_table() {
    let mut random = Random::new(3);
    let mut unknown = 0;
    while unknown < 200 {
        let words = random_model(&mut random).words();
        let plant = Plant::from_words(&words).unwrap();
        let size = plant.table_words();
        let budget = pass_budget(&plant).min(100);
        let (mut table, mut work) = (vec![0; size], vec![0; size]);
        let (answer, _) = run(&plant, budget, &mut table, &mut work);
        if answer != Answer::Unknown {
            continue;
        }
        unknown += 1;
        for round in 0..10 {
            let mut other = if round < 5 { random_table(&mut random, &plant) } else { table.clone() };
            if round % 5 != 0 {
                close(&plant, &mut other, budget);
            }
            if round % 5 > 2 {
                damage_table(&mut random, &plant, &mut other);
            }
            assert!(ask_table(&plant, &other).is_err());
        }
    }
}

/// Levels around a start box and its invariant: all combinations of those at and beside their ends, over a
/// denominator.
fn levels_around(start: &[i32], invariant: &[i32], denominator: i64) -> Vec<Vec<i64>> {
    let mut all = vec![vec![]];
    for (start, wall) in start.chunks(2).zip(invariant.chunks(2)) {
        let ends = [start[0], start[1], wall[0], wall[1]].map(|end| end as i64 * denominator);
        let mut levels: Vec<i64> = ends.iter().flat_map(|end| [end - 1, *end, end + 1]).collect();
        levels.sort_unstable();
        levels.dedup();
        all = all.iter().flat_map(|found| levels.iter().map(move |&level| [&found[..], &[level]].concat())).collect();
    }
    all
}

/// A run may start exactly in the start part, of which the plain restatement says the same.
#[test]
fn runs_start_in_the_start_part() {
    let mut random = Random::new(13);
    let (mut inside, mut outside, mut none) = (0, 0, 0);
    for _ in 0..3_000 {
        let words = random_model(&mut random).words();
        let plant = Plant::from_words(&words).unwrap();
        for l in 0..plant.sizes.locations {
            let location = plant.location(l);
            let part = location.start_part().map(|part| plain::ranges(&part[..2 * plant.sizes.n]));
            assert_eq!(part, plain::start(&plant, l));
            if plant.sizes.n > 3 || !location.started {
                continue;
            }
            none += part.is_none() as u32;
            let denominator = random.pick(&[1, 2, 3]);
            for levels in levels_around(location.start, location.invariant, denominator) {
                let within = |part: &plain::Ranges| {
                    let in_range = |(level, range): (&i64, &(i64, i64))| {
                        range.0 * denominator <= *level && *level <= range.1 * denominator
                    };
                    levels.iter().zip(part).all(in_range)
                };
                let is_start = part.as_ref().is_some_and(within);
                assert_eq!(may_start(&plant, denominator, &Configuration { location: l, levels }), is_start);
                *(if is_start { &mut inside } else { &mut outside }) += 1;
            }
        }
    }
    assert!(inside > 10_000 && outside > 10_000 && none > 100, "{inside} {outside} {none}");
}

/// Answer, k and table, and whether two other tables are accepted.
fn outcome(plant: &Plant, tables: [&[i32]; 2]) -> ((Answer, u32), Vec<i32>, [bool; 2]) {
    let size = plant.table_words();
    let (mut table, mut work) = (vec![0; size], vec![0; size]);
    let answer = run(plant, pass_budget(plant).min(60), &mut table, &mut work);
    (answer, table, tables.map(|table| ask_table(plant, table).is_ok()))
}

/// A model whose start boxes are trimmed to their start parts has the same answer, k and table, and the same
/// tables are accepted. One without a start part is safe at once.
#[test]
fn trimmed_start_boxes_change_nothing() {
    let mut random = Random::new(14);
    let (mut compared, mut no_part, mut accepted) = (0, 0, 0);
    while compared < 1_000 {
        let draft = if random.chance(1, 4) { crossing_model(&mut random) } else { random_model(&mut random) };
        let words = draft.words();
        let plant = Plant::from_words(&words).unwrap();
        let shorter = trimmed(&plant);
        let trimmed = Plant::from_words(&shorter).unwrap();
        assert!(!any_crosses(&trimmed));
        assert_eq!(any_crosses(&plant), words != shorter);
        if words == shorter {
            continue;
        }
        compared += 1;
        let (mut rest, mut other) = (vec![0; plant.table_words()], random_table(&mut random, &plant));
        close(&plant, &mut rest, 60);
        close(&plant, &mut other, 60);
        let (found, again) = (outcome(&plant, [&rest, &other]), outcome(&trimmed, [&rest, &other]));
        assert_eq!(found, again, "{words:?}");
        accepted += found.2.iter().filter(|&&is| is).count();
        if (0..plant.sizes.locations).all(|l| plant.location(l).start_part().is_none()) {
            assert_eq!((found.0, found.1), ((Answer::Safe, 0), vec![0; plant.table_words()]));
            no_part += 1;
        }
    }
    assert!(no_part > 50 && accepted > 400, "{no_part} without a start part, {accepted} tables accepted");
}

/// The table at rest with whole start boxes, by literal passes; None after too many.
fn literal_with_whole_boxes(plant: &Plant, most: u32) -> Option<plain::Faces> {
    let mut faces = plain::from_words(plant, &vec![0; plant.table_words()]);
    for _ in 0..most {
        let mut next = plain::pass(plant, &faces);
        for l in (0..plant.sizes.locations).filter(|&l| plant.location(l).started) {
            let location = plant.location(l);
            let [start, rates, invariant] = [location.start, location.rates, location.invariant].map(plain::ranges);
            for (number, (face, keeps)) in plain::pieces(plant, l).into_iter().enumerate() {
                let reached = plain::wall_step(&start, &rates, &invariant, face / 2, location.invariant[face] as i64);
                if let Some(both) = reached.and_then(|reached| plain::cut(&reached, &keeps?)) {
                    next[l][number] = plain::hull(&next[l][number], &both);
                }
            }
        }
        if next == faces {
            return Some(faces);
        }
        faces = next;
    }
    None
}

/// What is reached from start parts lies inside what whole start boxes would reach; so parts never make a
/// safe plant unknown, and some plants are safe by them.
#[test]
fn start_parts_only_narrow() {
    let mut random = Random::new(15);
    let (mut compared, mut narrower, mut helped) = (0, 0, 0);
    while compared < 400 {
        let draft = if random.chance(1, 2) { crossing_model(&mut random) } else { random_model(&mut random) };
        let words = draft.words();
        let plant = Plant::from_words(&words).unwrap();
        if !any_crosses(&plant) || draft.locations.len() > 8 {
            continue;
        }
        let (whole, at_rest) = table_of_whole_boxes(&plant, 60);
        let mut table = vec![0; plant.table_words()];
        if !at_rest || !close(&plant, &mut table, 60) {
            continue;
        }
        let Some(literal) = literal_with_whole_boxes(&plant, 200) else {
            continue;
        };
        compared += 1;
        assert_eq!(whole, plain::to_words(&plant, &literal), "{words:?}");
        let words_of_one = plant.sizes.face_words();
        for (inner, outer) in table.chunks(words_of_one).zip(whole.chunks(words_of_one)) {
            assert!(inner[0] == 0 || (outer[0] == 1 && ordered_inside(&inner[1..], &outer[1..])), "{words:?}");
        }
        let (touched, by_whole) = (forbidden_touched(&plant, &table), touched_by_whole_boxes(&plant, &whole));
        assert!(!touched || by_whole, "{words:?}");
        narrower += (table != whole) as u32;
        helped += (by_whole && !touched) as u32;
    }
    assert!(helped > 100 && narrower > 100, "{helped} safe by their start parts, {narrower} narrower");
}

/// All that a piece can hold in a well-formed table, as bounds; the first is "absent".
fn all_boxes(plant: &Plant, piece: Piece) -> Vec<Option<Vec<i32>>> {
    let mut boxes: Vec<Vec<i32>> = Vec::new();
    if let Some(widest) = plant.widest(piece) {
        boxes.push(vec![]);
        for outer in widest[..2 * plant.sizes.n].chunks_exact(2) {
            let ranges: Vec<[i32; 2]> =
                (outer[0]..=outer[1]).flat_map(|low| (low..=outer[1]).map(move |high| [low, high])).collect();
            boxes = boxes
                .iter()
                .flat_map(|found| ranges.iter().map(move |range| [&found[..], &range[..]].concat()))
                .collect();
        }
    }
    std::iter::once(None).chain(boxes.into_iter().map(Some)).collect()
}

/// All that each piece of a table can hold, piece by piece.
type Choices = Vec<Vec<Option<Vec<i32>>>>;

/// Fills in the table of this number: its digits, by how many choices each piece has, say which of them are taken.
fn put_choices(choices: &Choices, mut number: u64, table: &mut [i32]) {
    let face_words = table.len() / choices.len();
    for (list, words) in choices.iter().zip(table.chunks_exact_mut(face_words)) {
        match &list[(number % list.len() as u64) as usize] {
            None => words.fill(0),
            Some(bounds) => {
                words[0] = 1;
                words[1..].copy_from_slice(bounds);
            }
        }
        number /= list.len() as u64;
    }
}

/// Hands on every well-formed table, one after the other, and gives how many there are. None if there are too many to
/// try.
fn each_table(plant: &Plant, most: u64, mut tried: impl FnMut(&[i32])) -> Option<u64> {
    let choices: Choices = plant.all_pieces().map(|piece| all_boxes(plant, piece)).collect();
    let total = choices.iter().try_fold(1u64, |product, list| product.checked_mul(list.len() as u64))?;
    if total > most {
        return None;
    }
    let mut table = vec![0; plant.table_words()];
    for number in 0..total {
        put_choices(&choices, number, &mut table);
        tried(&table);
    }
    Some(total)
}

/// Questions 33 and 34 of a table that is well formed.
fn is_accepted(plant: &Plant, table: &[i32], next: &mut [i32]) -> bool {
    !pass(plant, table, next) && !forbidden_touched(plant, table)
}

/// How many well-formed tables there are, how many of them the checker accepts, how many it accepted before T-06,
/// each of which it must accept, and how many random runs were held to some of those that it accepts: they meet
/// nothing forbidden and stay where the table reaches. None if there are too many tables to try.
fn accepted_tables(plant: &Plant, random: &mut Random, most: u64) -> Option<[u64; 4]> {
    let (mut accepted, mut before, mut runs) = (0, 0, 0);
    let mut next = vec![0; plant.table_words()];
    let total = each_table(plant, most, |table| {
        let was_accepted = before::ask_table(plant, table).is_ok();
        before += was_accepted as u64;
        let is_accepted = is_accepted(plant, table, &mut next);
        assert!(is_accepted || !was_accepted, "{:?} {table:?}", plant.words());
        accepted += is_accepted as u64;
        if is_accepted && accepted <= 40 {
            let travelled = travel(plant, table, random, 10);
            assert_eq!((travelled.forbidden, travelled.unreached), (0, 0), "{:?} {table:?}", plant.words());
            runs += travelled.runs;
        }
    })?;
    Some([total, accepted, before, runs])
}

/// At most three variables and three locations, and no invariant wider than 4.
fn is_very_small(draft: &Draft) -> bool {
    let narrow = |location: &LocationDraft| location.invariant.chunks(2).all(|r| r[1] - r[0] <= 4);
    draft.n <= 3 && draft.locations.len() <= 3 && draft.locations.iter().all(narrow)
}

/// What became of the tables of a pair: how many there are, how many are accepted for the first and for the second.
/// Each that is accepted for the first must be for the second. None if there are too many tables to try.
fn tables_of_a_pair(first: &Plant, second: &Plant, most: u64) -> Option<[u64; 3]> {
    let mut accepted = [0, 0];
    let mut next = vec![0; first.table_words()];
    let total = each_table(first, most, |table| {
        let of_first = is_accepted(first, table, &mut next);
        let of_second = is_accepted(second, table, &mut next);
        assert!(of_second || !of_first, "{:?} {:?} {table:?}", first.words(), second.words());
        accepted[0] += of_first as u64;
        accepted[1] += of_second as u64;
    })?;
    Some([total, accepted[0], accepted[1]])
}

/// T-13: every table that is accepted for a very small plant is accepted for a narrower one, and if the plant is safe
/// under its ceiling, so is the narrower one.
#[test]
fn every_table_of_very_small_pairs() {
    let mut random = Random::new(45);
    let (mut pairs, mut cut, mut tables, mut both, mut second_only, mut helped) = (0, 0, 0, 0, 0, 0);
    while pairs < 500 || cut < 150 {
        let draft = if random.chance(1, 4) { ranged_model(&mut random) } else { random_model(&mut random) };
        if !is_very_small(&draft) {
            continue;
        }
        let words = draft.words();
        let first = Plant::from_words(&words).unwrap();
        let made = narrowed(&mut random, &first).words;
        let second = Plant::from_words(&made).unwrap();
        assert!(narrower(&first, &second));
        let Some([tried, of_first, of_second]) = tables_of_a_pair(&first, &second, 20_000) else {
            continue;
        };
        let limit = ceiling::of_plant(&first) as u32;
        assert_eq!(ceiling::of_plant(&second) as u32, limit);
        let (mut table, mut work) = (vec![0; first.table_words()], vec![0; first.table_words()]);
        let answers = [&first, &second].map(|plant| run(plant, limit, &mut table, &mut work).0);
        assert!(answers[0] != Answer::Safe || answers[1] == Answer::Safe, "{words:?} {made:?}");
        pairs += 1;
        cut += first.any_cut() as u32;
        tables += tried;
        both += of_first;
        second_only += of_second - of_first;
        helped += (answers == [Answer::Unknown, Answer::Safe]) as u32;
    }
    assert!(
        tables > 500_000 && both > 500 && second_only > 500 && helped > 50,
        "{tables} {both} {second_only} {helped}"
    );
}

/// On very small models, under a limit of the ceiling: safe exactly if some table at all is
/// accepted, otherwise unknown.
#[test]
fn every_table_of_very_small_models() {
    let mut random = Random::new(5);
    let (mut models, mut cut, mut crossing, mut tables, mut runs, mut safe, mut unknown) = (0, 0, 0, 0, 0, 0, 0);
    let (mut still, mut newly, mut ranged, mut unknown_by_ranges) = (0, 0, 0, 0);
    while models < 400 || cut < 150 || crossing < 150 || ranged < 100 {
        let draft = match random.below(4) {
            0 => pump_model(&mut random),
            1 => ranged_model(&mut random),
            _ => random_model(&mut random),
        };
        if !is_very_small(&draft) || draft.forbidden.is_empty() {
            continue;
        }
        let words = draft.words();
        let plant = Plant::from_words(&words).unwrap();
        let Some([tried, accepted, before, travelled]) = accepted_tables(&plant, &mut random, 30_000) else {
            continue;
        };
        still += before;
        newly += accepted - before;
        let size = plant.table_words();
        let (mut table, mut work) = (vec![0; size], vec![0; size]);
        let limit = ceiling::of_plant(&plant) as u32;
        let (answer, k) = run(&plant, limit, &mut table, &mut work);
        assert!(k <= limit);
        let wanted = if accepted > 0 { Answer::Safe } else { Answer::Unknown };
        assert_eq!(answer, wanted, "{words:?}");
        models += 1;
        cut += plant.any_cut() as u32;
        crossing += any_crosses(&plant) as u32;
        ranged += any_range(&plant) as u32;
        let lows = with_ranges(&plant, lows_alone);
        let of_lows = run(&Plant::from_words(&lows).unwrap(), limit, &mut table, &mut work).0;
        unknown_by_ranges += (any_range(&plant) && answer == Answer::Unknown && of_lows == Answer::Safe) as u32;
        tables += tried;
        runs += travelled;
        safe += (accepted > 0) as u32;
        unknown += (accepted == 0) as u32;
    }
    let counts =
        format!("{models} models, {crossing} crossing, {safe} safe, {unknown} unknown, {tables} tables, {runs} runs");
    println!("{counts}, {still} tables accepted before and still, {newly} newly");
    println!("{ranged} models with a reset range, {unknown_by_ranges} unknown by it");
    assert!(unknown_by_ranges > 10, "{unknown_by_ranges}");
    assert!(safe > 50 && unknown > 50 && runs > 1_000, "{counts}");
    assert!(still > 150 && newly > 40, "{still} tables accepted before and still, {newly} newly");
}

/// Every ordered range of the levels 0..3.
fn small_ranges() -> Vec<[i32; 2]> {
    (0..=3).flat_map(|low| (low..=3).map(move |high| [low, high])).collect()
}

/// Mask, guard, reset range and target of y, each of them of every kind.
fn every_small_switch() -> Vec<(u32, [i32; 2], [i32; 2], [i32; 2])> {
    let mut all = Vec::new();
    for mask in [0b00, 0b10] {
        for guard in small_ranges() {
            for reset in small_ranges() {
                all.extend(small_ranges().into_iter().map(|room| (mask, guard, reset, room)));
            }
        }
    }
    all
}

/// A switch at x = 1 from a location with y 0..3 to one with y in `room`, x 0..1 in both.
fn small_switch(mask: u32, guard: [i32; 2], reset: [i32; 2], room: [i32; 2]) -> Draft {
    let location = |y: [i32; 2]| LocationDraft { invariant: vec![0, 1, y[0], y[1]], rates: vec![0; 4], start: None };
    let on_the_wall = |y: [i32; 2]| vec![1, 1, y[0], y[1]];
    let switch = SwitchDraft {
        source: 0,
        target: 1,
        d: 0,
        source_side: 1,
        target_side: 1,
        mask,
        guard: on_the_wall(guard),
        reset: on_the_wall(reset),
    };
    let locations = vec![location([0, 3]), location(room)];
    Draft { n: 2, edition: Edition::Two, locations, switches: vec![switch], ..Draft::default() }
}

/// T-10: a switch step lands exactly on the levels that runs have after the switch, from every level of the part, for
/// every guard, reset range and target of one variable, masked or not. Levels are halves.
#[test]
fn switch_steps_hold_what_runs_reach() {
    let at = |location: usize, y: i64| Configuration { location, levels: vec![2, y] };
    let (mut landed, mut nothing, mut wide) = (0, 0, 0);
    for (mask, guard, reset, room) in every_small_switch() {
        let words = small_switch(mask, guard, reset, room).words();
        let plant = Plant::from_words(&words).unwrap();
        for part in small_ranges() {
            let from = 2 * part[0] as i64..=2 * part[1] as i64;
            let may = |to: &i64| from.clone().any(|y| may_move(&plant, 2, &at(0, y), Move::Switch(0), &at(1, *to)));
            let reached: Vec<i64> = (0..=6).filter(may).collect();
            let mut out = [0; MAX_BOX];
            let bounds = [1, 1, part[0], part[1]];
            let found = switch_step(2, &bounds, &plant.switch(0), plant.location(1).invariant, &mut out);
            let of_step: Vec<i64> = if found { (2 * out[2] as i64..=2 * out[3] as i64).collect() } else { vec![] };
            assert_eq!(reached, of_step, "{mask:b} {part:?} {guard:?} {reset:?} {room:?}");
            let plainly = plain::switch_step(&plant, &plain::ranges(&bounds), 0);
            assert_eq!(plainly, found.then(|| plain::ranges(&out[..4])));
            landed += found as u32;
            nothing += !found as u32;
            wide += (found && mask != 0 && out[2] < out[3] && part[0] == part[1]) as u32;
        }
    }
    assert!(landed > 5_000 && nothing > 5_000 && wide > 300, "{landed} landed, {nothing} not, {wide} wider");
}

/// What the analysis answers within some passes.
fn answered(plant: &Plant) -> Answer {
    let (mut table, mut work) = (vec![0; plant.table_words()], vec![0; plant.table_words()]);
    run_quick(plant, pass_budget(plant).min(100), &mut table, &mut work).0
}

/// T-10: pass by pass, the tables with narrower reset ranges lie inside those with the ranges; a table that is accepted
/// for a model is accepted with narrower ranges; so a safe model stays safe. Some are unknown by their ranges alone.
#[test]
fn narrower_ranges_only_narrow() {
    let mut random = Random::new(41);
    let (mut compared, mut other_tables, mut unknown_by_ranges, mut accepted) = (0, 0, 0, 0);
    while compared < 500 {
        let draft = if random.chance(1, 2) { ranged_model(&mut random) } else { random_model(&mut random) };
        let words = draft.words();
        let plant = Plant::from_words(&words).unwrap();
        if !any_range(&plant) {
            continue;
        }
        compared += 1;
        let change = random.pick(&[lows_alone, highs_alone, inside_alone]);
        let narrower = with_ranges(&plant, change);
        let narrow = Plant::from_words(&narrower).unwrap();
        let (mut inner, mut outer) = (vec![0; plant.table_words()], vec![0; plant.table_words()]);
        for _ in 0..12 {
            close(&narrow, &mut inner, 1);
            close(&plant, &mut outer, 1);
            assert!(lies_inside(&plant, &inner, &outer), "{words:?}");
        }
        other_tables += (inner != outer) as u32;
        let mut other = random_table(&mut random, &plant);
        close(&plant, &mut other, 60);
        for table in [&outer, &other] {
            if ask_table(&plant, table).is_ok() {
                assert_eq!(ask_table(&narrow, table), Ok(()), "{words:?}");
                accepted += 1;
            }
        }
        match (answered(&plant), answered(&narrow)) {
            (Answer::Unknown, Answer::Safe) => unknown_by_ranges += 1,
            (Answer::Safe, narrow) => assert_ne!(narrow, Answer::Unknown, "{words:?}"),
            _ => {}
        }
    }
    let counts =
        format!("{other_tables} other tables, {unknown_by_ranges} unknown by their ranges, {accepted} accepted");
    assert!(other_tables > 150 && unknown_by_ranges > 50 && accepted > 100, "{counts}");
}

/// T-10: runs of safe models take levels inside reset ranges, fractions too, meet nothing forbidden and stay where the
/// table reaches; where only the lows of the ranges do, some of them leave it.
#[test]
fn runs_through_ranges() {
    let mut random = Random::new(42);
    let (mut travelled, mut of_lows) = (Travelled::default(), Travelled::default());
    let mut safe = 0;
    while safe < 300 {
        let draft = if random.chance(1, 2) { ranged_model(&mut random) } else { random_model(&mut random) };
        let words = draft.words();
        let plant = Plant::from_words(&words).unwrap();
        let (mut table, mut work) = (vec![0; plant.table_words()], vec![0; plant.table_words()]);
        let budget = pass_budget(&plant).min(60);
        if !any_range(&plant) || run_quick(&plant, budget, &mut table, &mut work).0 != Answer::Safe {
            continue;
        }
        safe += 1;
        travelled.add(&travel(&plant, &table, &mut random, 6));
        let lows = with_ranges(&plant, lows_alone);
        let mut narrower = vec![0; plant.table_words()];
        close(&Plant::from_words(&lows).unwrap(), &mut narrower, budget);
        of_lows.add(&travel(&plant, &narrower, &mut random, 6));
    }
    assert_eq!((travelled.forbidden, travelled.unreached), (0, 0));
    assert!(travelled.inside_ranges > 300 && travelled.fractions > 200, "{travelled:?}");
    assert!(of_lows.unreached > 100, "{of_lows:?}");
}

/// T-10: a model without a range has the same answer, k and table in both editions, and the same tables are accepted;
/// one with a range is refused by 16 in edition 1.
#[test]
fn both_editions_agree() {
    let mut random = Random::new(43);
    let (mut alike, mut refused) = (0, 0);
    for _ in 0..1_500 {
        let words = random_model(&mut random).words();
        let plant = Plant::from_words(&words).unwrap();
        let other = in_other_edition(&plant);
        match Plant::from_words(&other) {
            Ok(other) => {
                let (mut rest, random_one) = (vec![0; plant.table_words()], random_table(&mut random, &plant));
                close(&plant, &mut rest, 60);
                assert_eq!(outcome(&plant, [&rest, &random_one]), outcome(&other, [&rest, &random_one]), "{words:?}");
                assert!(!any_range(&plant));
                alike += 1;
            }
            Err(number) => {
                assert_eq!((number, plant.edition), (16, Edition::Two), "{words:?}");
                assert!(any_range(&plant));
                refused += 1;
            }
        }
    }
    assert!(alike > 500 && refused > 200, "{alike} alike, {refused} refused");
}

/// Each piece of the table of a plant with cuts lies inside the face of the same plant without them, pass by
/// pass; so its cuts never make a safe plant unknown. Some models are safe by them.
#[test]
fn cuts_only_narrow() {
    let mut random = Random::new(6);
    let (mut compared, mut narrower, mut helped) = (0, 0, 0);
    while compared < 600 {
        let draft = if random.chance(1, 3) { helped_model(&mut random) } else { random_model(&mut random) };
        if draft.cuts.is_empty() {
            continue;
        }
        compared += 1;
        let (words, whole_words) = (draft.words(), Draft { cuts: vec![], ..draft.clone() }.words());
        let plant = Plant::from_words(&words).unwrap();
        let whole = Plant::from_words(&whole_words).unwrap();
        let (mut table, mut faces) = (vec![0; plant.table_words()], vec![0; whole.table_words()]);
        let (mut next, mut next_faces) = (table.clone(), faces.clone());
        for _ in 0..12 {
            pass(&plant, &table, &mut next);
            pass(&whole, &faces, &mut next_faces);
            (table, faces) = (next.clone(), next_faces.clone());
            for piece in plant.all_pieces() {
                let inner = &table[plant.piece_places(piece)];
                let outer = &faces[whole.face_places(piece.location, piece.face)];
                let inside = ordered_inside(&inner[1..], &outer[1..]);
                assert!(inner[0] == 0 || (outer[0] == 1 && inside), "{words:?}");
            }
        }
        narrower += (forbidden_touched(&whole, &faces) && !forbidden_touched(&plant, &table)) as u32;
        match (answered(&plant), answered(&whole)) {
            (Answer::Safe, Answer::Unknown) => helped += 1,
            (Answer::Unknown, whole) => assert_eq!(whole, Answer::Unknown),
            _ => {}
        }
    }
    assert!(helped > 40 && narrower > 40, "{helped} safe by their cuts, {narrower} narrower");
}
