//! Is what is promised of a narrower plant (document 02, T-13), and of one with further cuts (T-12), found broken by
//! itself, without this package's own answers? Each function here is this package's own answer with one mistake. Of each
//! it is said whether pairs of a plant and a narrower one, or of a plant and one with further cuts, find it: not found
//! are those that only make more safe or accept more.

mod alone;

use alone::Alone;
use second::c_calls::exports::{answer, Call};
use second::c_calls::slices::{Input, Lengths, Lent, Slice};
use second::held::compare::Difference;
use second::held::pairing::{
    accepted_stays, ends_within, files_stay, first_stays, limits, never_unknown, quoted, second_safe, Kind, Pair,
};
use second::inputs::draft::Draft;
use second::inputs::generate::{close, pass_budget, random_model, random_table};
use second::inputs::narrowing::narrowed;
use second::inputs::random::Random;
use second::inputs::refining::refined;
use second::inputs::starts::{any_crosses, table_of_whole_boxes, touched_by_whole_boxes};
use second::reference::model::{Cut, Edition, Plant, LEVEL};

type Wrong = fn(Call, &Input, &mut Lent) -> u32;

/// All that is promised of a pair.
fn hold(calls: &mut Alone, pair: &Pair, table: &[i32]) -> Result<(), Difference> {
    let quote = quoted(calls, pair)?;
    let (size, limit) = (quote.words as usize, pass_budget(pair.first).min(200));
    let lengths = Lengths::of_table(size).with(Slice::Words, size + calls.random.below(4));
    if let Some(found) = first_stays(calls, pair, limit, &lengths)? {
        let soon = ends_within(pair.second, 2_000);
        let limits = if soon { limits(&mut calls.random, quote.ceiling) } else { vec![] };
        second_safe(calls, pair, found.words(), &limits, &lengths)?;
        files_stay(calls, pair, limit, &limits, quote.bytes as usize)?;
        never_unknown(calls, pair, found.value() as u32, &quote)?;
    }
    accepted_stays(calls, pair, table)?;
    Ok(())
}

/// How many random pairs of a kind were held until one broke its promise; None if none did.
fn broken_after(answer: Wrong, pairs: u64, kind: Kind) -> Option<u64> {
    let mut random = Random::new(61);
    let mut calls = Alone { answer, random: Random::new(62) };
    (1..=pairs).find(|_| {
        let words = random_model(&mut random).words();
        let first = &Plant::from_words(&words).expect("a random model passes its questions");
        let made = match kind {
            Kind::Narrower => narrowed(&mut random, first).words,
            Kind::Finer => refined(&mut random, first, &[]).0,
        };
        let second = &Plant::from_words(&made).expect("the second of a pair passes its questions");
        let mut table = random_table(&mut random, first);
        close(first, &mut table, pass_budget(first).min(50));
        hold(&mut calls, &Pair { first, second, kind }, &table).is_err()
    })
}

#[test]
fn the_right_calls_keep_the_promise() {
    for kind in [Kind::Narrower, Kind::Finer] {
        assert_eq!(broken_after(answer, 3_000, kind), None);
    }
}

fn is_analysis(call: Call) -> bool {
    matches!(call, Call::Analyse | Call::Desk)
}

/// The analysis or the checker of another model, where the own passes its questions.
fn of_another(call: Call, input: &Input, lent: &mut Lent, change: fn(&mut Draft)) -> u32 {
    match Plant::from_words(input.model()) {
        Ok(plant) if is_analysis(call) || call == Call::Check => {
            let mut draft = Draft::of(&plant);
            change(&mut draft);
            answer(call, &input.with_model(&draft.words()), lent)
        }
        _ => answer(call, input, lent),
    }
}

/// The checker's number where it accepts, of the plant and the list.
fn accepted_but(call: Call, input: &Input, lent: &mut Lent, change: fn(&Plant, &[i32]) -> u32) -> u32 {
    let number = answer(call, input, lent);
    if call == Call::Check && number == 100 {
        return change(
            &Plant::from_words(input.model()).expect("100 comes after the model's questions"),
            input.table(),
        );
    }
    number
}

/// The analysis's number where it is safe, of the plant and the limit.
fn safe_but(call: Call, input: &Input, lent: &mut Lent, change: fn(&Plant, u32) -> u32) -> u32 {
    let number = answer(call, input, lent);
    if is_analysis(call) && number == 100 {
        return change(&Plant::from_words(input.model()).expect("100 comes after the model's questions"), input.limit);
    }
    number
}

/// The number, unless this holds.
fn unless(holds: bool, number: u32) -> u32 {
    if holds {
        100
    } else {
        number
    }
}

fn only_its_own_table(call: Call, input: &Input, lent: &mut Lent) -> u32 {
    accepted_but(call, input, lent, |plant, list| {
        let mut table = vec![0; plant.table_words()];
        let at_rest = close(plant, &mut table, 2_000);
        unless(!at_rest || list.starts_with(&table), 33)
    })
}

fn longer_list_refused(call: Call, input: &Input, lent: &mut Lent) -> u32 {
    accepted_but(call, input, lent, |plant, list| unless(list.len() == plant.table_words(), 32))
}

fn edition_1_with_a_mask_refused(call: Call, input: &Input, lent: &mut Lent) -> u32 {
    accepted_but(call, input, lent, |plant, _| {
        let masked = (0..plant.sizes.switches).any(|s| plant.switch(s).mask != 0);
        unless(plant.edition == Edition::Two || !masked, 33)
    })
}

fn edition_2_without_a_mask_refused(call: Call, input: &Input, lent: &mut Lent) -> u32 {
    accepted_but(call, input, lent, |plant, _| {
        let masked = (0..plant.sizes.switches).any(|s| plant.switch(s).mask != 0);
        unless(plant.edition == Edition::One || masked, 33)
    })
}

fn flag_1_wants_a_face(call: Call, input: &Input, lent: &mut Lent) -> u32 {
    accepted_but(call, input, lent, |plant, list| {
        let faces = |l: usize| list[plant.location_places(l)].chunks_exact(plant.sizes.face_words());
        let reached = |l: usize| faces(l).any(|words| words[0] == 1);
        unless((0..plant.sizes.locations).all(|l| !plant.location(l).started || reached(l)), 33)
    })
}

fn two_switches_want_a_face(call: Call, input: &Input, lent: &mut Lent) -> u32 {
    accepted_but(call, input, lent, |plant, list| {
        let switched = |s: usize| {
            let switch = plant.switch(s);
            list[plant.face_places(switch.source, 2 * switch.d + switch.source_side)].contains(&1)
        };
        unless(plant.sizes.switches < 2 || (0..plant.sizes.switches).any(switched), 33)
    })
}

fn many_boxes_refused(call: Call, input: &Input, lent: &mut Lent) -> u32 {
    accepted_but(call, input, lent, |plant, _| unless(plant.sizes.forbidden < 4, 34))
}

fn checked_with_whole_boxes(call: Call, input: &Input, lent: &mut Lent) -> u32 {
    accepted_but(call, input, lent, |plant, list| {
        let reached = table_of_whole_boxes(plant, 0).0;
        unless(second::reference::before::lies_inside(plant, &reached, list), 33)
    })
}

fn crossing_start_refused(call: Call, input: &Input, lent: &mut Lent) -> u32 {
    accepted_but(call, input, lent, |plant, _| unless(!any_crosses(plant), 13))
}

fn analysed_with_whole_boxes(call: Call, input: &Input, lent: &mut Lent) -> u32 {
    safe_but(call, input, lent, |plant, _| {
        unless(!touched_by_whole_boxes(plant, &table_of_whole_boxes(plant, 100).0), 101)
    })
}

fn few_switches_unknown(call: Call, input: &Input, lent: &mut Lent) -> u32 {
    safe_but(call, input, lent, |plant, _| unless(plant.sizes.switches + 1 >= plant.sizes.locations, 101))
}

fn no_start_unknown(call: Call, input: &Input, lent: &mut Lent) -> u32 {
    safe_but(call, input, lent, |plant, _| unless((0..plant.sizes.locations).any(|l| plant.location(l).started), 101))
}

fn unfinished_at_the_ceiling(call: Call, input: &Input, lent: &mut Lent) -> u32 {
    safe_but(call, input, lent, |plant, limit| unless(limit as u64 != second::reference::ceiling::of_plant(plant), 102))
}

fn unfinished_without_end(call: Call, input: &Input, lent: &mut Lent) -> u32 {
    safe_but(call, input, lent, |_, limit| unless(limit != u32::MAX, 102))
}

/// What is not settled within the limit is unknown.
fn unknown_for_unfinished(call: Call, input: &Input, lent: &mut Lent) -> u32 {
    match answer(call, input, lent) {
        102 => 101,
        number => number,
    }
}

fn desk_of_16_bits(call: Call, input: &Input, lent: &mut Lent) -> u32 {
    let number = answer(call, input, lent);
    if call == Call::Desk && input.limit > 65_535 {
        return 22;
    }
    number
}

fn one_rate_means_up_to_it(call: Call, input: &Input, lent: &mut Lent) -> u32 {
    of_another(call, input, lent, |draft| {
        for location in &mut draft.locations {
            for rate in location.rates.chunks_exact_mut(2).filter(|rate| rate[0] == rate[1]) {
                rate.copy_from_slice(&[rate[0].min(0), rate[1].max(0)]);
            }
        }
    })
}

fn one_level_forbidden_is_all(call: Call, input: &Input, lent: &mut Lent) -> u32 {
    of_another(call, input, lent, |draft| {
        for (_, bounds) in &mut draft.forbidden {
            for range in bounds.chunks_exact_mut(2).filter(|range| range[0] == range[1]) {
                range.copy_from_slice(&[-LEVEL, LEVEL]);
            }
        }
    })
}

fn one_reset_value_is_0(call: Call, input: &Input, lent: &mut Lent) -> u32 {
    of_another(call, input, lent, |draft| {
        for switch in &mut draft.switches {
            let masked = (0..draft.n).filter(|&i| i != switch.d && switch.mask >> i & 1 == 1);
            for i in masked.filter(|_| draft.edition == Edition::One).collect::<Vec<_>>() {
                switch.reset[2 * i..2 * i + 2].fill(0);
            }
        }
    })
}

fn last_switch_not_taken(call: Call, input: &Input, lent: &mut Lent) -> u32 {
    of_another(call, input, lent, |draft| drop(draft.switches.pop()))
}

fn first_box_alone_tested(call: Call, input: &Input, lent: &mut Lent) -> u32 {
    of_another(call, input, lent, |draft| draft.forbidden.truncate(1))
}

fn ceiling_by_switches(call: Call, input: &Input, lent: &mut Lent) -> u32 {
    let number = answer(call, input, lent);
    if call == Call::Ceiling && number == 100 {
        *lent.value() += input.model()[2] as u64;
    }
    number
}

fn quoted_by_edition(call: Call, input: &Input, lent: &mut Lent) -> u32 {
    let number = answer(call, input, lent);
    if call == Call::Quote && number == 100 {
        lent.slice::<u64>(Slice::Quote)[1] += 4 * input.model()[4] as u64;
    }
    number
}

/// A table file is read only with as many pieces as the model's own answer has.
fn file_of_another_count_refused(call: Call, input: &Input, lent: &mut Lent) -> u32 {
    let number = answer(call, input, lent);
    if call != Call::ReadTable || number != 100 {
        return number;
    }
    let plant = Plant::from_words(input.model()).expect("100 comes after the model's questions");
    let mut own = vec![0; plant.table_words()];
    close(&plant, &mut own, 2_000);
    let present = |table: &[i32]| table.chunks_exact(plant.sizes.face_words()).filter(|words| words[0] == 1).count();
    unless(present(&own) == present(&lent.words(Slice::Words)[..own.len()]), 35)
}

/// Everything is accepted: more is, and a narrower plant is no exception.
fn every_table_accepted(call: Call, input: &Input, lent: &mut Lent) -> u32 {
    let number = answer(call, input, lent);
    if call == Call::Check && (32..=34).contains(&number) {
        return 100;
    }
    number
}

/// No forbidden box is tested: what is wrong with it, is so of both.
fn nothing_forbidden(call: Call, input: &Input, lent: &mut Lent) -> u32 {
    of_another(call, input, lent, |draft| draft.forbidden.clear())
}

/// No switch is taken.
fn nothing_switched(call: Call, input: &Input, lent: &mut Lent) -> u32 {
    of_another(call, input, lent, |draft| draft.switches.clear())
}

const WRONG: [(&str, Wrong, bool); 27] = [
    ("only its own table is accepted", only_its_own_table, true),
    ("a longer list refused", longer_list_refused, true),
    ("a mask in edition 1 refused", edition_1_with_a_mask_refused, true),
    ("no mask in edition 2 refused", edition_2_without_a_mask_refused, true),
    ("flag 1 wants a present face", flag_1_wants_a_face, true),
    ("two switches want a present face", two_switches_want_a_face, true),
    ("many forbidden boxes refused", many_boxes_refused, true),
    ("33 by whole start boxes", checked_with_whole_boxes, true),
    ("13 of start boxes that stick out", crossing_start_refused, true),
    ("unknown by whole start boxes", analysed_with_whole_boxes, true),
    ("few switches are unknown", few_switches_unknown, true),
    ("no start flag is unknown", no_start_unknown, true),
    ("unfinished at the ceiling", unfinished_at_the_ceiling, true),
    ("unfinished under the last limit", unfinished_without_end, true),
    ("unknown for unfinished", unknown_for_unfinished, true),
    ("a desk of 16 bits", desk_of_16_bits, true),
    ("one rate means up to it", one_rate_means_up_to_it, true),
    ("one level forbidden is every level", one_level_forbidden_is_all, true),
    ("one reset value is 0", one_reset_value_is_0, true),
    ("the last switch is not taken", last_switch_not_taken, true),
    ("the first forbidden box alone is tested", first_box_alone_tested, true),
    ("a ceiling by switches", ceiling_by_switches, true),
    ("a quote by edition", quoted_by_edition, true),
    ("a table file of another count refused", file_of_another_count_refused, true),
    ("every table accepted", every_table_accepted, false),
    ("nothing is forbidden", nothing_forbidden, false),
    ("no switch is taken", nothing_switched, false),
];

fn cut_unknown(call: Call, input: &Input, lent: &mut Lent) -> u32 {
    safe_but(call, input, lent, |plant, _| unless(!plant.any_cut(), 101))
}

/// A test of the two pieces of some face of an accepted table, by the cut.
fn some_face(plant: &Plant, list: &[i32], test: impl Fn(&[i32], &[i32], Cut) -> bool) -> bool {
    let words = plant.sizes.face_words();
    let faces = |l: usize, cut: Cut| (0..plant.sizes.faces()).map(move |face| (&list[plant.face_places(l, face)], cut));
    let cut = (0..plant.sizes.locations).filter_map(|l| plant.cut(l).map(|cut| faces(l, cut)));
    cut.flatten().any(|(pieces, cut)| test(&pieces[..words], &pieces[words..], cut))
}

fn both_pieces_refused(call: Call, input: &Input, lent: &mut Lent) -> u32 {
    accepted_but(call, input, lent, |plant, list| {
        unless(!some_face(plant, list, |up, from, _| up[0] + from[0] == 2), 33)
    })
}

fn value_in_the_second_refused(call: Call, input: &Input, lent: &mut Lent) -> u32 {
    accepted_but(call, input, lent, |plant, list| {
        unless(!some_face(plant, list, |_, from, cut| from[0] == 1 && from[1 + 2 * cut.variable] == cut.value), 32)
    })
}

/// The checker takes every cut one higher, where that is still inside.
fn checked_one_higher(call: Call, input: &Input, lent: &mut Lent) -> u32 {
    if call != Call::Check {
        return answer(call, input, lent);
    }
    of_another(call, input, lent, |draft| {
        for (l, i, value) in &mut draft.cuts {
            *value = (*value + 1).min(draft.locations[*l].invariant[2 * *i + 1] - 1);
        }
    })
}

fn quoted_by_faces(call: Call, input: &Input, lent: &mut Lent) -> u32 {
    let number = answer(call, input, lent);
    if call == Call::Quote && number == 100 {
        let sizes = Plant::from_words(input.model()).expect("100 comes after the model's questions").sizes;
        lent.slice::<u64>(Slice::Quote)[0] = (sizes.locations * sizes.faces() * sizes.face_words()) as u64;
    }
    number
}

/// The same of plants with further cuts.
const WRONG_CUTS: [(&str, Wrong, bool); 9] = [
    ("a plant with a cut is unknown", cut_unknown, true),
    ("a face in both pieces refused", both_pieces_refused, true),
    ("the value in a second piece refused", value_in_the_second_refused, true),
    ("checked with cuts one higher", checked_one_higher, true),
    ("quoted by faces", quoted_by_faces, true),
    ("only its own table is accepted", only_its_own_table, true),
    ("unfinished at the ceiling", unfinished_at_the_ceiling, true),
    ("every table accepted", every_table_accepted, false),
    ("nothing is forbidden", nothing_forbidden, false),
];

fn hold_found(wrong: &[(&str, Wrong, bool)], kind: Kind) {
    for &(name, wrong, found) in wrong {
        let broken = broken_after(wrong, if found { 3_000 } else { 1_000 }, kind);
        println!("{name}: broken with pair {broken:?}");
        assert_eq!(broken.is_some(), found, "{name}");
    }
}

#[test]
fn what_breaks_the_promise() {
    hold_found(&WRONG, Kind::Narrower);
}

#[test]
fn what_breaks_the_promise_of_cuts() {
    hold_found(&WRONG_CUTS, Kind::Finer);
}
