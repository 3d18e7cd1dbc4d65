//! Does the comparison find wrong C calls? Each function here is this package's own answer with one
//! mistake, in a number, a value or lent memory; each must be found within few random models. Wrong writers
//! of model files stand in `wrong_writers`.

mod finding;

use finding::{found_after, must_be_found, Answer};
use second::c_calls::exports::{answer, Call};
use second::c_calls::slices::{Input, Lent, Slice};
use second::inputs::ranges::{highs_alone, lows_alone, with_ranges};
use second::inputs::starts::{any_crosses, table_of_whole_boxes, touched_by_whole_boxes};
use second::reference::before;
use second::reference::ceiling;
use second::reference::desk::Desk;
use second::reference::files::{HEAD, HEAD_2};
use second::reference::model::{
    ask_head, ordered_inside, words_per_location, Edition, Location, Piece, Plant, Sizes, EDITION_AT, LEVEL,
};
use second::reference::quote::{by_widths, Quote};
use second::reference::tables::well_formed;

fn refused(number: u32) -> bool {
    number < 100
}

/// The words of the model's table, if the model passes its questions.
fn table_words(input: &Input) -> Option<usize> {
    Plant::from_words(input.model()).ok().map(|plant| plant.table_words())
}

fn value_not_written_on_a_refusal(call: Call, input: &Input, lent: &mut Lent) -> u32 {
    let old = lent.read::<u64>(Slice::Value).to_vec();
    let number = answer(call, input, lent);
    if refused(number) {
        lent.slice(Slice::Value).copy_from_slice(&old);
    }
    number
}

fn limit_as_value_of_unknown(call: Call, input: &Input, lent: &mut Lent) -> u32 {
    let number = answer(call, input, lent);
    if call == Call::Desk && number == 101 {
        *lent.value() = input.limit as u64;
    }
    number
}

fn ceiling_of_32_bits(call: Call, input: &Input, lent: &mut Lent) -> u32 {
    let number = answer(call, input, lent);
    if call == Call::Ceiling {
        *lent.value() = *lent.value() as u32 as u64;
    }
    number
}

/// Does the model pass its questions, with words past its end?
fn model_is_longer(input: &Input) -> bool {
    Plant::from_words(input.model()).is_ok_and(|plant| plant.words().len() < input.model().len())
}

fn longer_model_refused(call: Call, input: &Input, lent: &mut Lent) -> u32 {
    if call == Call::Ceiling && model_is_longer(input) {
        *lent.value() = 0;
        return 5;
    }
    answer(call, input, lent)
}

fn longer_table_refused(call: Call, input: &Input, lent: &mut Lent) -> u32 {
    if call == Call::Check && table_words(input).is_some_and(|size| size < input.table().len()) {
        return 32;
    }
    answer(call, input, lent)
}

fn touching_asked_before_unchanged(call: Call, input: &Input, lent: &mut Lent) -> u32 {
    let number = answer(call, input, lent);
    if call == Call::Check && number == 33 {
        let plant = Plant::from_words(input.model()).expect("33 comes after the model's questions");
        if second::reference::tables::forbidden_touched(&plant, &input.table()[..plant.table_words()]) {
            return 34;
        }
    }
    number
}

/// Read a model or a table, with something done to the word buffer afterwards.
fn after_reading(call: Call, input: &Input, lent: &mut Lent, change: fn(u32, &[i32], &mut [i32])) -> u32 {
    let before = lent.words(Slice::Words).to_vec();
    let number = answer(call, input, lent);
    if matches!(call, Call::ReadModel | Call::ReadTable) {
        change(number, &before, lent.words(Slice::Words));
    }
    number
}

fn buffer_kept_on_8(call: Call, input: &Input, lent: &mut Lent) -> u32 {
    after_reading(call, input, lent, |number, before, words| {
        if number == 8 {
            words.copy_from_slice(before);
        }
    })
}

fn buffer_kept_on_38(call: Call, input: &Input, lent: &mut Lent) -> u32 {
    after_reading(call, input, lent, |number, before, words| {
        if number == 38 {
            words.copy_from_slice(before);
        }
    })
}

fn buffer_zeroed_on_5_and_20(call: Call, input: &Input, lent: &mut Lent) -> u32 {
    after_reading(call, input, lent, |number, _, words| {
        if number == 5 || number == 20 {
            words.fill(0);
        }
    })
}

fn last_word_kept_where_zeroed(call: Call, input: &Input, lent: &mut Lent) -> u32 {
    after_reading(call, input, lent, |number, before, words| {
        if let (32 | 35..=38 | 6..=8 | 11..=19 | 46, Some(last)) = (number, words.last_mut()) {
            *last = before[before.len() - 1];
        }
    })
}

fn rest_zeroed_when_read(call: Call, input: &Input, lent: &mut Lent) -> u32 {
    let number = answer(call, input, lent);
    if call == Call::ReadTable && number == 100 {
        let value = *lent.value() as usize;
        lent.words(Slice::Words)[value..].fill(0);
    }
    number
}

fn rest_of_the_file_zeroed(call: Call, input: &Input, lent: &mut Lent) -> u32 {
    let number = answer(call, input, lent);
    if call == Call::WriteTable && number == 100 {
        let value = *lent.value() as usize;
        lent.bytes(Slice::FileRoom)[value..].fill(0);
    }
    number
}

fn room_asked_before_32(call: Call, input: &Input, lent: &mut Lent) -> u32 {
    let number = answer(call, input, lent);
    let room = lent.bytes(Slice::FileRoom).len();
    let short = Plant::from_words(input.model()).is_ok_and(|plant| room < plant.table_file_room());
    if call == Call::WriteTable && number == 32 && short {
        return 39;
    }
    number
}

/// A file that is written where it should not be.
fn written(file: &[u8], lent: &mut Lent) -> u32 {
    lent.bytes(Slice::FileRoom)[..file.len()].copy_from_slice(file);
    *lent.value() = file.len() as u64;
    100
}

fn room_of_the_file_alone(call: Call, input: &Input, lent: &mut Lent) -> u32 {
    let number = answer(call, input, lent);
    if call == Call::WriteTable && number == 39 {
        let plant = Plant::from_words(input.model()).expect("39 comes after the model's questions");
        let table = &input.table()[..plant.table_words()];
        assert!(well_formed(&plant, table));
        let file = second::reference::files::table_file(&plant, table);
        if file.len() <= lent.bytes(Slice::FileRoom).len() {
            return written(&file, lent);
        }
    }
    number
}

fn work_asked_before_table(call: Call, input: &Input, lent: &mut Lent) -> u32 {
    let number = answer(call, input, lent);
    let short = table_words(input).is_some_and(|size| lent.words(Slice::Work).len() < size);
    if call == Call::Analyse && number == 20 && short {
        return 21;
    }
    number
}

fn work_zeroed_over_the_table(call: Call, input: &Input, lent: &mut Lent) -> u32 {
    let before = lent.words(Slice::Work).to_vec();
    let number = answer(call, input, lent);
    if matches!(call, Call::Analyse | Call::Desk) && !refused(number) {
        let size = table_words(input).expect("an answer comes after the model's questions");
        lent.words(Slice::Work)[size..].copy_from_slice(&before[size..]);
    }
    number
}

fn work_left_after_unknown(call: Call, input: &Input, lent: &mut Lent) -> u32 {
    let before = lent.words(Slice::Work).to_vec();
    let number = answer(call, input, lent);
    if call == Call::Desk && number == 101 {
        lent.words(Slice::Work).copy_from_slice(&before);
    }
    number
}

fn later_table_words_zeroed(call: Call, input: &Input, lent: &mut Lent) -> u32 {
    let number = answer(call, input, lent);
    if call == Call::Analyse && !refused(number) {
        let size = table_words(input).expect("an answer comes after the model's questions");
        lent.words(Slice::Words)[size..].fill(0);
    }
    number
}

/// The desk, with something done to its counters afterwards: number, limit, before and after.
fn at_the_desk(call: Call, input: &Input, lent: &mut Lent, change: fn(u32, u32, Desk, &mut Desk)) -> u32 {
    let before = lent.desk();
    let number = answer(call, input, lent);
    if let (Some(before), Some(mut desk)) = (before, lent.desk()) {
        change(number, input.limit, before, &mut desk);
        lent.put_desk(&desk);
    }
    number
}

fn passes_by_the_limit(call: Call, input: &Input, lent: &mut Lent) -> u32 {
    at_the_desk(call, input, lent, |number, limit, before, desk| {
        if !refused(number) {
            desk.passes = before.passes + limit;
        }
    })
}

fn refusal_counts_a_job(call: Call, input: &Input, lent: &mut Lent) -> u32 {
    at_the_desk(call, input, lent, |number, _, before, desk| {
        if refused(number) {
            desk.jobs = before.jobs.wrapping_add(1);
        }
    })
}

fn unfinished_not_charged(call: Call, input: &Input, lent: &mut Lent) -> u32 {
    at_the_desk(call, input, lent, |number, _, before, desk| {
        if number == 102 {
            *desk = before;
        }
    })
}

fn counters_exchanged(call: Call, input: &Input, lent: &mut Lent) -> u32 {
    at_the_desk(call, input, lent, |number, _, _, desk| {
        if !refused(number) {
            std::mem::swap(&mut desk.jobs, &mut desk.passes);
        }
    })
}

fn jobs_not_asked(call: Call, input: &Input, lent: &mut Lent) -> u32 {
    if let Some(desk @ Desk { jobs: u32::MAX, .. }) = lent.desk() {
        lent.put_desk(&Desk { jobs: u32::MAX - 1, ..desk });
    }
    answer(call, input, lent)
}

fn limit_cut_to_what_is_left(call: Call, input: &Input, lent: &mut Lent) -> u32 {
    let limit = lent.desk().map_or(input.limit, |desk| input.limit.min(u32::MAX - desk.passes));
    answer(call, &input.under(limit), lent)
}

fn counters_asked_first(call: Call, input: &Input, lent: &mut Lent) -> u32 {
    let full = |desk: Desk| desk.jobs == u32::MAX || desk.passes as u64 + input.limit as u64 > u32::MAX as u64;
    let full = lent.desk().is_some_and(full);
    let number = answer(call, input, lent);
    if call == Call::Desk && (20..22).contains(&number) && full {
        return 22;
    }
    number
}

/// The number of the model's words with forbidden boxes that are right.
fn number_beside_boxes(model: &[i32]) -> Option<u32> {
    let (sizes, _) = ask_head(model).ok()?;
    let mut words = model[..sizes.model_words()].to_vec();
    words[sizes.forbidden_at(0)..sizes.cut_at(0)].fill(0);
    Plant::from_words(&words).err()
}

fn cuts_asked_before_boxes(call: Call, input: &Input, lent: &mut Lent) -> u32 {
    let number = answer(call, input, lent);
    if number == 19 && call != Call::ReadModel && number_beside_boxes(input.model()) == Some(46) {
        return 46;
    }
    number
}

fn eight_for_forty_six(call: Call, input: &Input, lent: &mut Lent) -> u32 {
    let number = answer(call, input, lent);
    if call == Call::ReadModel && number == 46 {
        8
    } else {
        number
    }
}

fn buffer_kept_on_46(call: Call, input: &Input, lent: &mut Lent) -> u32 {
    after_reading(call, input, lent, |number, before, words| {
        if number == 46 {
            words.copy_from_slice(before);
        }
    })
}

/// A cut at the highest value that it can have.
fn highest_value_refused(call: Call, input: &Input, lent: &mut Lent) -> u32 {
    let highest = |plant: &Plant| {
        (0..plant.sizes.locations).any(|l| {
            let invariant = plant.location(l).invariant;
            plant.cut(l).is_some_and(|cut| cut.value == invariant[2 * cut.variable + 1] - 1)
        })
    };
    if call == Call::Ceiling && Plant::from_words(input.model()).is_ok_and(|plant| highest(&plant)) {
        *lent.value() = 0;
        return 46;
    }
    answer(call, input, lent)
}

/// The ceiling with something added for each cut: what it is of a location and its cut variable.
fn ceiling_with(call: Call, input: &Input, lent: &mut Lent, more: fn(&Location, usize) -> u64) -> u32 {
    let number = answer(call, input, lent);
    if call == Call::Ceiling && number == 100 {
        let plant = Plant::from_words(input.model()).expect("a ceiling comes after the model's questions");
        *lent.value() += over_cuts(&plant, more);
    }
    number
}

/// The sum over all cuts of what something is of a location and its cut variable.
fn over_cuts(plant: &Plant, more: fn(&Location, usize) -> u64) -> u64 {
    let locations = (0..plant.sizes.locations).map(|l| plant.location(l));
    locations.filter_map(|location| location.cut.map(|cut| more(&location, cut.variable))).sum()
}

fn width(location: &Location, i: usize) -> u64 {
    (location.invariant[2 * i + 1] as i64 - location.invariant[2 * i] as i64) as u64
}

/// The sum of all widths.
fn widths(location: &Location) -> u64 {
    (0..location.invariant.len() / 2).map(|i| width(location, i)).sum()
}

/// The cut variable's whole width once more, on the walls of each of the others.
fn both_pieces_whole(location: &Location, cut: usize) -> u64 {
    (location.invariant.len() as u64 - 2) * width(location, cut)
}

fn second_pieces_on_own_walls(location: &Location, cut: usize) -> u64 {
    2 * (1 + widths(location) - width(location, cut))
}

fn ceiling_of_both_pieces_whole(call: Call, input: &Input, lent: &mut Lent) -> u32 {
    ceiling_with(call, input, lent, both_pieces_whole)
}

fn ceiling_with_second_pieces_on_own_walls(call: Call, input: &Input, lent: &mut Lent) -> u32 {
    ceiling_with(call, input, lent, second_pieces_on_own_walls)
}

/// The quote of a model that passes its questions, with something done to it afterwards.
fn quoted_with(call: Call, input: &Input, lent: &mut Lent, change: fn(&Plant, &mut Quote)) -> u32 {
    let number = answer(call, input, lent);
    if call == Call::Quote && number == 100 {
        let plant = Plant::from_words(input.model()).expect("a quote comes after the model's questions");
        let mut quote = lent.quote().expect("a quote is lent its values");
        change(&plant, &mut quote);
        lent.put_quote(&quote);
    }
    number
}

/// A quote's bytes by the bytes of a piece's field in each location.
fn bytes_by(plant: &Plant, field: impl Fn(usize) -> usize) -> u64 {
    let of_location = |l: usize| plant.sizes.faces() * plant.pieces_of(l) * field(l);
    7 + (0..plant.sizes.locations).map(of_location).sum::<usize>() as u64
}

fn quoted_by_n_for_n_minus_1(call: Call, input: &Input, lent: &mut Lent) -> u32 {
    quoted_with(call, input, lent, |plant, quote| {
        quote.ceiling += (0..plant.sizes.locations).map(|l| 2 * widths(&plant.location(l))).sum::<u64>();
    })
}

fn quoted_without_the_first_location(call: Call, input: &Input, lent: &mut Lent) -> u32 {
    quoted_with(call, input, lent, |plant, quote| quote.ceiling -= ceiling::of_location(plant, 0))
}

fn quoted_without_the_last_location(call: Call, input: &Input, lent: &mut Lent) -> u32 {
    quoted_with(call, input, lent, |plant, quote| {
        quote.words = plant.location_places(plant.sizes.locations - 1).start as u64;
    })
}

fn quoted_as_without_cuts(call: Call, input: &Input, lent: &mut Lent) -> u32 {
    quoted_with(call, input, lent, |plant, quote| {
        quote.ceiling =
            (0..plant.sizes.locations).map(|l| by_widths(&Location { cut: None, ..plant.location(l) })).sum();
    })
}

fn quoted_with_both_pieces_whole(call: Call, input: &Input, lent: &mut Lent) -> u32 {
    quoted_with(call, input, lent, |plant, quote| quote.ceiling += over_cuts(plant, both_pieces_whole))
}

fn quoted_with_second_pieces_on_own_walls(call: Call, input: &Input, lent: &mut Lent) -> u32 {
    quoted_with(call, input, lent, |plant, quote| quote.ceiling += over_cuts(plant, second_pieces_on_own_walls))
}

fn quoted_in_32_bits(call: Call, input: &Input, lent: &mut Lent) -> u32 {
    quoted_with(call, input, lent, |_, quote| quote.ceiling = quote.ceiling as u32 as u64)
}

fn quoted_words_without_second_pieces(call: Call, input: &Input, lent: &mut Lent) -> u32 {
    quoted_with(call, input, lent, |plant, quote| {
        quote.words = (plant.sizes.locations * words_per_location(plant.sizes.n)) as u64;
    })
}

fn quoted_bytes_without_second_pieces(call: Call, input: &Input, lent: &mut Lent) -> u32 {
    quoted_with(call, input, lent, |plant, quote| {
        let sizes = plant.sizes;
        quote.bytes = 7 + (sizes.locations * sizes.faces() * (3 + 4 * plant.field_words())) as u64;
    })
}

fn quoted_by_the_shorter_field(call: Call, input: &Input, lent: &mut Lent) -> u32 {
    quoted_with(call, input, lent, |plant, quote| quote.bytes = bytes_by(plant, |_| 11 + 8 * plant.sizes.n))
}

fn quoted_by_each_location_s_field(call: Call, input: &Input, lent: &mut Lent) -> u32 {
    quoted_with(call, input, lent, |plant, quote| {
        let longer = |l: usize| plant.cut(l).is_some();
        quote.bytes = bytes_by(plant, |l| if longer(l) { 15 } else { 11 } + 8 * plant.sizes.n);
    })
}

/// Without the second pieces that are always absent.
fn quoted_by_the_longest_file_there_is(call: Call, input: &Input, lent: &mut Lent) -> u32 {
    quoted_with(call, input, lent, |plant, quote| {
        quote.bytes -= over_cuts(plant, |location, _| 2 * (15 + 4 * location.invariant.len() as u64));
    })
}

fn quoted_words_for_bytes(call: Call, input: &Input, lent: &mut Lent) -> u32 {
    quoted_with(call, input, lent, |_, quote| std::mem::swap(&mut quote.words, &mut quote.bytes))
}

/// The quote's refusal, with something done to its number and to what was lent.
fn not_quoted(call: Call, input: &Input, lent: &mut Lent, change: fn(&mut u32, &Quote, &mut Quote)) -> u32 {
    let old = lent.quote();
    let mut number = answer(call, input, lent);
    if let (Some(old), Some(mut quote), true) = (old, lent.quote(), refused(number)) {
        change(&mut number, &old, &mut quote);
        lent.put_quote(&quote);
    }
    number
}

fn quote_refused_by_the_next_number(call: Call, input: &Input, lent: &mut Lent) -> u32 {
    not_quoted(call, input, lent, |number, _, _| *number += 1)
}

fn quote_refused_by_5_for_43(call: Call, input: &Input, lent: &mut Lent) -> u32 {
    not_quoted(call, input, lent, |number, _, _| *number = if *number == 43 { 5 } else { *number })
}

fn quote_not_written_on_a_refusal(call: Call, input: &Input, lent: &mut Lent) -> u32 {
    not_quoted(call, input, lent, |_, old, quote| *quote = *old)
}

fn quoted_words_kept_on_5(call: Call, input: &Input, lent: &mut Lent) -> u32 {
    not_quoted(call, input, lent, |number, old, quote| quote.words = if *number == 5 { old.words } else { 0 })
}

fn quoted_bytes_kept_on_46(call: Call, input: &Input, lent: &mut Lent) -> u32 {
    not_quoted(call, input, lent, |number, old, quote| quote.bytes = if *number == 46 { old.bytes } else { 0 })
}

fn quoted_ceiling_kept_on_11(call: Call, input: &Input, lent: &mut Lent) -> u32 {
    not_quoted(call, input, lent, |number, old, quote| quote.ceiling = if *number == 11 { old.ceiling } else { 0 })
}

fn longer_model_not_quoted(call: Call, input: &Input, lent: &mut Lent) -> u32 {
    if call == Call::Quote && model_is_longer(input) {
        lent.put_quote(&Quote::default());
        return 5;
    }
    answer(call, input, lent)
}

/// Words of the table if no location were cut.
fn words_without_cuts(input: &Input) -> Option<usize> {
    Plant::from_words(input.model()).ok().map(|plant| plant.sizes.locations * words_per_location(plant.sizes.n))
}

fn table_asked_without_pieces(call: Call, input: &Input, lent: &mut Lent) -> u32 {
    let number = answer(call, input, lent);
    if call == Call::Check && number == 20 && words_without_cuts(input).is_some_and(|size| size <= input.table().len())
    {
        return 32;
    }
    number
}

fn room_of_the_shorter_field(call: Call, input: &Input, lent: &mut Lent) -> u32 {
    let number = answer(call, input, lent);
    if call == Call::WriteTable && number == 39 {
        let plant = Plant::from_words(input.model()).expect("39 comes after the model's questions");
        let shorter = 7 + plant.pieces() * (11 + 8 * plant.sizes.n);
        let file = second::reference::files::table_file(&plant, &input.table()[..plant.table_words()]);
        if file.len().max(shorter) <= lent.bytes(Slice::FileRoom).len() {
            return written(&file, lent);
        }
    }
    number
}

/// Question 32 of a table with more boxes for a piece: checked is 33 where that is all that is wrong.
fn well_formed_but_for(call: Call, input: &Input, lent: &mut Lent, widest: fn(&Plant, Piece) -> Vec<i32>) -> u32 {
    let number = answer(call, input, lent);
    if call != Call::Check || number != 32 {
        return number;
    }
    let plant = Plant::from_words(input.model()).expect("32 comes after the model's questions");
    let stands = |piece: Piece| {
        let words = &input.table()[plant.piece_places(piece)];
        match words[0] {
            0 => words.iter().all(|&word| word == 0),
            flag => flag == 1 && ordered_inside(&words[1..], &widest(&plant, piece)),
        }
    };
    if plant.all_pieces().all(stands) {
        33
    } else {
        32
    }
}

/// The wall of a piece, as far as the invariant goes.
fn wall_of(plant: &Plant, piece: Piece) -> Vec<i32> {
    let invariant = plant.location(piece.location).invariant;
    let mut wall = invariant.to_vec();
    let d = piece.face / 2;
    wall[2 * d..2 * d + 2].fill(invariant[piece.face]);
    wall
}

fn sides_not_asked(call: Call, input: &Input, lent: &mut Lent) -> u32 {
    well_formed_but_for(call, input, lent, |plant, piece| match plant.widest(piece) {
        Some(_) => wall_of(plant, piece),
        None => vec![1, 0].repeat(plant.sizes.n),
    })
}

fn second_pieces_taken_on_own_walls(call: Call, input: &Input, lent: &mut Lent) -> u32 {
    well_formed_but_for(call, input, lent, |plant, piece| match plant.widest(piece) {
        Some(widest) => widest[..2 * plant.sizes.n].to_vec(),
        None => wall_of(plant, piece),
    })
}

fn thirty_six_for_thirty_seven_of_pieces(call: Call, input: &Input, lent: &mut Lent) -> u32 {
    let number = answer(call, input, lent);
    let cut = Plant::from_words(input.model()).is_ok_and(|plant| plant.any_cut());
    if call == Call::ReadTable && number == 37 && cut {
        return 36;
    }
    number
}

/// The model's words with something done to the start flag and start box of each location; None if there are
/// too few words.
fn with_starts(model: &[i32], change: fn(&mut [i32])) -> Option<Vec<i32>> {
    let (sizes, _) = ask_head(model).ok()?;
    let mut words = model.get(..sizes.model_words())?.to_vec();
    for l in 0..sizes.locations {
        change(&mut words[sizes.location_at(l) + 4 * sizes.n..sizes.location_at(l + 1)]);
    }
    Some(words)
}

/// The ceiling with start boxes of which something is not asked: put right, they pass.
fn ceiling_not_asking(call: Call, input: &Input, lent: &mut Lent, put_right: fn(&mut [i32])) -> u32 {
    let number = answer(call, input, lent);
    let words = with_starts(input.model(), put_right);
    match words {
        Some(words) if call == Call::Ceiling && number == 13 => answer(call, &input.with_model(&words), lent),
        _ => number,
    }
}

fn start_range_not_asked(call: Call, input: &Input, lent: &mut Lent) -> u32 {
    ceiling_not_asking(call, input, lent, |start| {
        if start[0] == 1 {
            start[1..].iter_mut().for_each(|end| *end = (*end).clamp(-LEVEL, LEVEL));
        }
    })
}

fn start_order_not_asked(call: Call, input: &Input, lent: &mut Lent) -> u32 {
    ceiling_not_asking(call, input, lent, |start| {
        if start[0] == 1 && start[1..].chunks_exact(2).any(|range| range[0] > range[1]) {
            start.fill(0);
        }
    })
}

fn zeros_not_asked_under_flag_0(call: Call, input: &Input, lent: &mut Lent) -> u32 {
    ceiling_not_asking(call, input, lent, |start| {
        if start[0] == 0 {
            start.fill(0);
        }
    })
}

fn starts_asked_last(call: Call, input: &Input, lent: &mut Lent) -> u32 {
    let number = answer(call, input, lent);
    let mended = || with_starts(input.model(), |start| start.fill(0));
    if call == Call::Check && number == 13 {
        return mended().and_then(|words| Plant::from_words(&words).err()).unwrap_or(13);
    }
    number
}

fn start_inside_still_asked(call: Call, input: &Input, lent: &mut Lent) -> u32 {
    if call == Call::Ceiling && Plant::from_words(input.model()).is_ok_and(|plant| any_crosses(&plant)) {
        *lent.value() = 0;
        return 13;
    }
    answer(call, input, lent)
}

fn start_inside_still_asked_of_files(call: Call, input: &Input, lent: &mut Lent) -> u32 {
    let number = answer(call, input, lent);
    let crosses = |words: &[i32]| Plant::from_words(words).is_ok_and(|plant| any_crosses(&plant));
    if call == Call::ReadModel && number == 100 && crosses(lent.words(Slice::Words)) {
        lent.words(Slice::Words).fill(0);
        *lent.value() = 0;
        return 13;
    }
    number
}

fn buffer_kept_on_13(call: Call, input: &Input, lent: &mut Lent) -> u32 {
    after_reading(call, input, lent, |number, before, words| {
        if number == 13 {
            words.copy_from_slice(before);
        }
    })
}

/// Safe is unknown where a start box, taken whole, touches a forbidden box or leads to one.
fn analysed_with_whole_boxes(call: Call, input: &Input, lent: &mut Lent) -> u32 {
    let number = answer(call, input, lent);
    if call == Call::Analyse && number == 100 {
        let plant = Plant::from_words(input.model()).expect("an answer comes after the model's questions");
        if touched_by_whole_boxes(&plant, &table_of_whole_boxes(&plant, 100).0) {
            return 101;
        }
    }
    number
}

/// A table is accepted only if it holds what whole start boxes reach in a step.
fn checked_with_whole_boxes(call: Call, input: &Input, lent: &mut Lent) -> u32 {
    let number = answer(call, input, lent);
    if call == Call::Check && number == 100 {
        let plant = Plant::from_words(input.model()).expect("an answer comes after the model's questions");
        let (reached, words) = (table_of_whole_boxes(&plant, 0).0, plant.sizes.face_words());
        let holds =
            |(held, new): (&[i32], &[i32])| new[0] == 0 || held[0] == 1 && ordered_inside(&new[1..], &held[1..]);
        if !input.table().chunks_exact(words).zip(reached.chunks_exact(words)).all(holds) {
            return 33;
        }
    }
    number
}

/// The analysis with the wall steps of before T-06, at the desk or not.
fn analysed_as_before(wrong: Call, call: Call, input: &Input, lent: &mut Lent) -> u32 {
    let number = answer(call, input, lent);
    if call == wrong && !refused(number) {
        let plant = Plant::from_words(input.model()).expect("an answer comes after the model's questions");
        let [table, work] = lent.several([Slice::Words, Slice::Work]);
        let (found, k) = before::run(&plant, input.limit, table, work);
        let right = std::mem::replace(lent.value(), k as u64) as u32;
        if let Some(Desk { jobs, passes }) = lent.desk() {
            lent.put_desk(&Desk { jobs, passes: passes.wrapping_sub(right).wrapping_add(k) });
        }
        return found.code();
    }
    number
}

fn analysed_with_all_delays(call: Call, input: &Input, lent: &mut Lent) -> u32 {
    analysed_as_before(Call::Analyse, call, input, lent)
}

fn charged_with_all_delays(call: Call, input: &Input, lent: &mut Lent) -> u32 {
    analysed_as_before(Call::Desk, call, input, lent)
}

fn checked_with_all_delays(call: Call, input: &Input, lent: &mut Lent) -> u32 {
    let number = answer(call, input, lent);
    if call == Call::Check && number == 100 {
        let plant = Plant::from_words(input.model()).expect("an answer comes after the model's questions");
        return before::ask_table(&plant, &input.table()[..plant.table_words()]).err().unwrap_or(100);
    }
    number
}

/// The model's words with another edition word.
fn of_edition(model: &[i32], edition: i32) -> Vec<i32> {
    let mut words = model.to_vec();
    words[EDITION_AT] = edition;
    words
}

/// The call on the same words with another edition word.
fn answer_of_edition(call: Call, input: &Input, lent: &mut Lent, edition: i32) -> u32 {
    answer(call, &input.with_model(&of_edition(input.model(), edition)), lent)
}

fn edition_asked_before_4(call: Call, input: &Input, lent: &mut Lent) -> u32 {
    let number = answer(call, input, lent);
    if call == Call::Ceiling && number == 4 && Edition::ask(input.model()[EDITION_AT]).is_err() {
        return 43;
    }
    number
}

fn edition_asked_after_the_whole(call: Call, input: &Input, lent: &mut Lent) -> u32 {
    let number = answer(call, input, lent);
    if call == Call::Analyse && number == 43 {
        let (sizes, _) = ask_head(&of_edition(input.model(), 1)).expect("43 comes after 2 to 4");
        if input.model().len() < sizes.model_words() {
            return 5;
        }
    }
    number
}

fn edition_asked_after_the_records(call: Call, input: &Input, lent: &mut Lent) -> u32 {
    let number = answer(call, input, lent);
    if call == Call::Check && number == 43 {
        return match Plant::from_words(&of_edition(input.model(), 2)).err() {
            Some(other) if other >= 11 => other,
            _ => 43,
        };
    }
    number
}

fn edition_not_asked(call: Call, input: &Input, lent: &mut Lent) -> u32 {
    let number = answer(call, input, lent);
    if call == Call::WriteTable && number == 43 {
        return answer_of_edition(call, input, lent, 1);
    }
    number
}

fn edition_0_taken(call: Call, input: &Input, lent: &mut Lent) -> u32 {
    let number = answer(call, input, lent);
    if call == Call::ReadTable && number == 43 && input.model()[EDITION_AT] == 0 {
        return answer_of_edition(call, input, lent, 1);
    }
    number
}

fn edition_3_taken(call: Call, input: &Input, lent: &mut Lent) -> u32 {
    let number = answer(call, input, lent);
    if call == Call::Desk && number == 43 && input.model()[EDITION_AT] == 3 {
        return answer_of_edition(call, input, lent, 2);
    }
    number
}

fn edition_by_its_last_byte(call: Call, input: &Input, lent: &mut Lent) -> u32 {
    let number = answer(call, input, lent);
    if call == Call::Ceiling && number == 43 {
        return answer_of_edition(call, input, lent, input.model()[EDITION_AT] & 255);
    }
    number
}

fn edition_of_the_word_before(call: Call, input: &Input, lent: &mut Lent) -> u32 {
    if call == Call::Check && input.model().len() > EDITION_AT {
        return answer_of_edition(call, input, lent, input.model()[EDITION_AT - 1]);
    }
    answer(call, input, lent)
}

fn four_words_are_a_head(call: Call, input: &Input, lent: &mut Lent) -> u32 {
    let number = answer(call, input, lent);
    if let (Call::Ceiling, &[n, l, e, b]) = (call, input.model()) {
        return Sizes::ask(n, l, e, b).err().unwrap_or(5);
    }
    number
}

fn read_as_edition_1(call: Call, input: &Input, lent: &mut Lent) -> u32 {
    let number = answer(call, input, lent);
    if call == Call::ReadModel && number == 100 {
        lent.words(Slice::Words)[EDITION_AT] = 1;
    }
    number
}

fn tag_as_edition(call: Call, input: &Input, lent: &mut Lent) -> u32 {
    let number = answer(call, input, lent);
    if call == Call::ReadModel && number == 100 {
        lent.words(Slice::Words)[EDITION_AT] = input.file()[0] as i32;
    }
    number
}

fn forty_three_of_a_file(call: Call, input: &Input, lent: &mut Lent) -> u32 {
    let number = answer(call, input, lent);
    let of_a_tag = input.file().first().is_some_and(|tag| *tag != HEAD && *tag != HEAD_2);
    if call == Call::ReadModel && number == 1 && of_a_tag {
        return 43;
    }
    number
}

fn tag_9_refused(call: Call, input: &Input, lent: &mut Lent) -> u32 {
    if call == Call::ReadModel && input.file().first() == Some(&HEAD_2) {
        *lent.value() = 0;
        return 1;
    }
    answer(call, input, lent)
}

fn buffer_kept_on_16(call: Call, input: &Input, lent: &mut Lent) -> u32 {
    after_reading(call, input, lent, |number, before, words| {
        if number == 16 {
            words.copy_from_slice(before);
        }
    })
}

fn every_masked_variable_asked(call: Call, input: &Input, lent: &mut Lent) -> u32 {
    if call == Call::Analyse && input.model().get(EDITION_AT) == Some(&2) {
        return answer_of_edition(call, input, lent, 1);
    }
    answer(call, input, lent)
}

fn d_alone_asked_in_edition_1(call: Call, input: &Input, lent: &mut Lent) -> u32 {
    let number = answer(call, input, lent);
    if call == Call::Ceiling && number == 16 && input.model()[EDITION_AT] == 1 {
        return answer_of_edition(call, input, lent, 2);
    }
    number
}

fn d_not_asked_in_edition_2(call: Call, input: &Input, lent: &mut Lent) -> u32 {
    let number = answer(call, input, lent);
    if call == Call::Ceiling && number == 16 && input.model()[EDITION_AT] == 2 {
        let mut words = input.model().to_vec();
        let (sizes, _) = ask_head(&words).expect("16 comes after the head's questions");
        for s in 0..sizes.switches {
            let d = words[sizes.switch_at(s) + 2];
            if (0..sizes.n as i32).contains(&d) {
                let at = sizes.reset_at(s, d as usize);
                words[at + 1] = words[at];
            }
        }
        return answer(call, &input.with_model(&words), lent);
    }
    number
}

/// The call on the same model with other reset ranges, where its own is answered.
fn answered_with(call: Call, input: &Input, lent: &mut Lent, wrong: Call, change: fn([i32; 2]) -> [i32; 2]) -> u32 {
    match Plant::from_words(input.model()) {
        Ok(plant) if call == wrong => answer(call, &input.with_model(&with_ranges(&plant, change)), lent),
        _ => answer(call, input, lent),
    }
}

fn analysed_with_lows_alone(call: Call, input: &Input, lent: &mut Lent) -> u32 {
    answered_with(call, input, lent, Call::Analyse, lows_alone)
}

fn analysed_with_highs_alone(call: Call, input: &Input, lent: &mut Lent) -> u32 {
    answered_with(call, input, lent, Call::Analyse, highs_alone)
}

fn charged_with_lows_alone(call: Call, input: &Input, lent: &mut Lent) -> u32 {
    answered_with(call, input, lent, Call::Desk, lows_alone)
}

fn checked_with_lows_alone(call: Call, input: &Input, lent: &mut Lent) -> u32 {
    answered_with(call, input, lent, Call::Check, lows_alone)
}

fn checked_with_highs_alone(call: Call, input: &Input, lent: &mut Lent) -> u32 {
    answered_with(call, input, lent, Call::Check, highs_alone)
}

fn fifteen_for_fourteen(call: Call, input: &Input, lent: &mut Lent) -> u32 {
    let number = answer(call, input, lent);
    if number == 14 {
        15
    } else {
        number
    }
}

const WRONG: [(&str, Answer); 91] = [
    ("value not written on a refusal", value_not_written_on_a_refusal),
    ("the limit as an unknown answer's value", limit_as_value_of_unknown),
    ("ceiling of 32 bits", ceiling_of_32_bits),
    ("longer model refused", longer_model_refused),
    ("longer table refused", longer_table_refused),
    ("34 before 33", touching_asked_before_unchanged),
    ("buffer kept on 8", buffer_kept_on_8),
    ("buffer kept on 38", buffer_kept_on_38),
    ("buffer zeroed on 5 and 20", buffer_zeroed_on_5_and_20),
    ("last word kept where zeroed", last_word_kept_where_zeroed),
    ("rest zeroed when read", rest_zeroed_when_read),
    ("rest of the file zeroed", rest_of_the_file_zeroed),
    ("39 before 32", room_asked_before_32),
    ("39 asks for the file alone", room_of_the_file_alone),
    ("21 before 20", work_asked_before_table),
    ("work zeroed over the table", work_zeroed_over_the_table),
    ("work left after unknown", work_left_after_unknown),
    ("later table words zeroed", later_table_words_zeroed),
    ("passes by the limit", passes_by_the_limit),
    ("a refusal counts a job", refusal_counts_a_job),
    ("unfinished not charged", unfinished_not_charged),
    ("counters exchanged", counters_exchanged),
    ("jobs not asked", jobs_not_asked),
    ("limit cut to what is left", limit_cut_to_what_is_left),
    ("22 before 20", counters_asked_first),
    ("15 for 14", fifteen_for_fourteen),
    ("13 without the range", start_range_not_asked),
    ("13 without the order", start_order_not_asked),
    ("13 without zeros under flag 0", zeros_not_asked_under_flag_0),
    ("13 after 46", starts_asked_last),
    ("13 of start boxes that stick out", start_inside_still_asked),
    ("13 of such boxes in files", start_inside_still_asked_of_files),
    ("buffer kept on 13", buffer_kept_on_13),
    ("unknown by whole start boxes", analysed_with_whole_boxes),
    ("33 by whole start boxes", checked_with_whole_boxes),
    ("the analysis with all delays", analysed_with_all_delays),
    ("the desk with all delays", charged_with_all_delays),
    ("33 with all delays", checked_with_all_delays),
    ("46 before 19", cuts_asked_before_boxes),
    ("8 for 46", eight_for_forty_six),
    ("buffer kept on 46", buffer_kept_on_46),
    ("the highest value of a cut refused", highest_value_refused),
    ("ceiling of both pieces whole", ceiling_of_both_pieces_whole),
    ("ceiling with second pieces on own walls", ceiling_with_second_pieces_on_own_walls),
    ("20 without second pieces", table_asked_without_pieces),
    ("39 by the shorter field", room_of_the_shorter_field),
    ("32 without the side", sides_not_asked),
    ("32 with second pieces on own walls", second_pieces_taken_on_own_walls),
    ("36 for 37 with pieces", thirty_six_for_thirty_seven_of_pieces),
    ("43 before 4", edition_asked_before_4),
    ("43 after 5 of the whole", edition_asked_after_the_whole),
    ("43 after 11 to 46", edition_asked_after_the_records),
    ("43 not asked", edition_not_asked),
    ("edition 0 as 1", edition_0_taken),
    ("edition 3 as 2", edition_3_taken),
    ("the edition's last byte", edition_by_its_last_byte),
    ("the word before as the edition", edition_of_the_word_before),
    ("four words as a head", four_words_are_a_head),
    ("every file read as edition 1", read_as_edition_1),
    ("the tag as the edition", tag_as_edition),
    ("43 of a file", forty_three_of_a_file),
    ("tag 9 refused", tag_9_refused),
    ("buffer kept on 16", buffer_kept_on_16),
    ("16 of every masked variable in edition 2", every_masked_variable_asked),
    ("16 of d alone in edition 1", d_alone_asked_in_edition_1),
    ("16 without d in edition 2", d_not_asked_in_edition_2),
    ("the analysis with the lows of ranges", analysed_with_lows_alone),
    ("the analysis with the highs of ranges", analysed_with_highs_alone),
    ("the desk with the lows of ranges", charged_with_lows_alone),
    ("33 with the lows of ranges", checked_with_lows_alone),
    ("33 with the highs of ranges", checked_with_highs_alone),
    ("a quote by n for n - 1", quoted_by_n_for_n_minus_1),
    ("a quoted ceiling without the first location", quoted_without_the_first_location),
    ("quoted words without the last location", quoted_without_the_last_location),
    ("a quoted ceiling as without cuts", quoted_as_without_cuts),
    ("a quoted ceiling of both pieces whole", quoted_with_both_pieces_whole),
    ("a quoted ceiling with second pieces on own walls", quoted_with_second_pieces_on_own_walls),
    ("a quoted ceiling of 32 bits", quoted_in_32_bits),
    ("quoted words without second pieces", quoted_words_without_second_pieces),
    ("quoted bytes without second pieces", quoted_bytes_without_second_pieces),
    ("quoted bytes by the shorter field", quoted_by_the_shorter_field),
    ("quoted bytes by each location's field", quoted_by_each_location_s_field),
    ("quoted bytes without what is always absent", quoted_by_the_longest_file_there_is),
    ("quoted words and bytes exchanged", quoted_words_for_bytes),
    ("a quote refused by the next number", quote_refused_by_the_next_number),
    ("a quote refused by 5 for 43", quote_refused_by_5_for_43),
    ("a quote not written on a refusal", quote_not_written_on_a_refusal),
    ("quoted words kept on 5", quoted_words_kept_on_5),
    ("quoted bytes kept on 46", quoted_bytes_kept_on_46),
    ("a quoted ceiling kept on 11", quoted_ceiling_kept_on_11),
    ("longer model not quoted", longer_model_not_quoted),
];

#[test]
fn every_wrong_call_is_found() {
    WRONG.into_iter().for_each(|(name, wrong)| must_be_found(name, wrong));
}

/// Writes past a lent buffer are found too: the margins are compared.
#[test]
fn writes_beside_a_buffer_are_found() {
    fn beside(call: Call, input: &Input, lent: &mut Lent) -> u32 {
        let number = answer(call, input, lent);
        if call == Call::Analyse {
            // SAFETY: not tight, so margins lie on both sides of the words.
            unsafe { *lent.words(Slice::Words).as_mut_ptr_range().end = 77 };
        }
        number
    }
    assert!(found_after(beside, 20).is_some());
}
