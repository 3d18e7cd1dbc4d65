//! Does the comparison find wrong writers of model files (document 02, T-01)? A third, literal writer, field by field,
//! in which one mistake at a time can be made: in the file, in question 40, in what it leaves, in its value. Each must
//! be found within few random models, and the writer without a mistake must agree. Of each it is said whether a model's
//! way there and back finds it by itself, without this package's own writer.

mod alone;
mod finding;

use std::cell::Cell;

use alone::Alone;
use finding::{found_after, must_be_found, Answer};
use second::c_calls::exports::{answer, Call};
use second::c_calls::slices::{Input, Lent, Slice};
use second::held::writing::round_trip;
use second::inputs::generate::random_model;
use second::inputs::random::Random;
use second::inputs::ranges::{lows_alone, with_ranges};
use second::inputs::starts::trimmed;
use second::reference::files::MOST_MODEL_BYTES;
use second::reference::model::{ask_head, Edition, Plant, EDITION_AT};

/// Tags and words of a file's fields.
type Fields = Vec<(u8, Vec<i32>)>;

/// The questions of a list and a buffer's length.
type Ask = for<'a> fn(&'a [i32], usize) -> Result<Plant<'a>, u32>;
/// The file of a model, and of the list that begins with it.
type File = fn(&Plant, &[i32]) -> Vec<u8>;
/// What is left of a file in the buffer; gives the value.
type Leave = fn(&[u8], &mut [u8]) -> usize;
/// What is left in the buffer after a refusal of a list by a number; gives the value.
type Refuse = fn(u32, &[i32], &mut [u8]) -> usize;

#[derive(Clone, Copy)]
struct Writer {
    ask: Ask,
    file: File,
    leave: Leave,
    refuse: Refuse,
}

/// The writer without a mistake.
const RIGHT: Writer = Writer {
    ask: |list, room| asked(list, room, own_bytes),
    file: |plant, _| in_bytes(&fields(plant)),
    leave: put,
    refuse: |_, _, _| 0,
};

thread_local! {
    /// The writer that is tried.
    static WRITER: Cell<Writer> = const { Cell::new(RIGHT) };
}

/// The call on model words with the writer that is tried; every other call as it is.
fn written(call: Call, input: &Input, lent: &mut Lent) -> u32 {
    if call != Call::WriteModel {
        return answer(call, input, lent);
    }
    let writer = WRITER.get();
    let (model, room) = (input.model(), lent.bytes(Slice::FileRoom));
    let (number, value) = match (writer.ask)(model, room.len()) {
        Ok(plant) => (100, (writer.leave)(&(writer.file)(&plant, model), room)),
        Err(number) => (number, (writer.refuse)(number, model, room)),
    };
    *lent.value() = value as u64;
    number
}

// ---------------------------------------------------------------- the file

/// The words of so many records, one after the other.
fn records(words: &mut &[i32], tag: u8, count: usize, length: usize) -> Fields {
    let (these, rest) = words.split_at(count * length);
    *words = rest;
    these.chunks_exact(length).map(|record| (tag, record.to_vec())).collect()
}

/// The fields of a model's file: its head, its records and its cuts.
fn fields(plant: &Plant) -> Fields {
    let (n, counts) = (plant.sizes.n, plant.sizes);
    let (head, mut rest) = plant.words().split_at(EDITION_AT + 1);
    let mut fields = vec![(if head[EDITION_AT] == 2 { 9 } else { 1 }, head[..EDITION_AT].to_vec())];
    fields.extend(records(&mut rest, 2, counts.locations, 6 * n + 1));
    fields.extend(records(&mut rest, 3, counts.switches, 6 + 4 * n));
    fields.extend(records(&mut rest, 4, counts.forbidden, 1 + 2 * n));
    let cuts = rest.chunks_exact(2).enumerate().filter(|(_, cut)| cut[0] >= 0);
    fields.extend(cuts.map(|(l, cut)| (8, vec![l as i32, cut[0], cut[1]])));
    fields
}

/// The bytes of fields, with these bytes for a length and for a word.
fn in_bytes_by(fields: &Fields, length: fn(usize) -> [u8; 2], word: fn(i32) -> [u8; 4]) -> Vec<u8> {
    let mut bytes = Vec::new();
    for (tag, words) in fields {
        bytes.push(*tag);
        bytes.extend(length(4 * words.len()));
        bytes.extend(words.iter().flat_map(|&number| word(number)));
    }
    bytes
}

fn length_bytes(length: usize) -> [u8; 2] {
    [(length / 256) as u8, (length % 256) as u8]
}

fn word_bytes(word: i32) -> [u8; 4] {
    [24, 16, 8, 0].map(|shift| (word >> shift) as u8)
}

fn in_bytes(fields: &Fields) -> Vec<u8> {
    in_bytes_by(fields, length_bytes, word_bytes)
}

/// The file with something done to its fields.
fn changed(plant: &Plant, change: impl Fn(&mut Fields)) -> Vec<u8> {
    let mut fields = fields(plant);
    change(&mut fields);
    in_bytes(&fields)
}

/// The file with its cuts' fields as these.
fn with_cuts(plant: &Plant, cuts: impl Fn(Fields) -> Fields) -> Vec<u8> {
    changed(plant, |fields| {
        let first = fields.len() - plant.cuts();
        let changed = cuts(fields.split_off(first));
        fields.extend(changed);
    })
}

/// The right file of words that pass their questions.
fn of_words(words: &[i32]) -> Vec<u8> {
    in_bytes(&fields(&Plant::from_words(words).expect("what is written passes its questions")))
}

/// The file with its fields in the order of these tags.
fn by_tags(plant: &Plant, tags: [u8; 5]) -> Vec<u8> {
    changed(plant, |fields| fields.sort_by_key(|(tag, _)| tags.iter().position(|due| due == tag)))
}

/// A field for every location: of variable -1 and value 0 where it is not cut.
fn uncut_as_cuts(plant: &Plant) -> Vec<u8> {
    let field = |l: usize| match plant.cut(l) {
        Some(cut) => (8, vec![l as i32, cut.variable as i32, cut.value]),
        None => (8, vec![l as i32, -1, 0]),
    };
    with_cuts(plant, |_| (0..plant.sizes.locations).map(field).collect())
}

/// Start flag 0 without its zeros.
fn without_zeros(plant: &Plant) -> Vec<u8> {
    let flag = 4 * plant.sizes.n;
    changed(plant, |fields| {
        let unstarted = fields.iter_mut().filter(|(tag, words)| *tag == 2 && words[flag] == 0);
        unstarted.for_each(|(_, words)| words.truncate(flag + 1));
    })
}

/// The file, and the words behind the model too.
fn with_words_behind(plant: &Plant, list: &[i32]) -> Vec<u8> {
    let behind = list[plant.words().len()..].iter().flat_map(|&word| word_bytes(word));
    in_bytes(&fields(plant)).into_iter().chain(behind).collect()
}

/// Each is found by a model's way there and back too.
const WRONG_FILES: [(&str, File); 24] = [
    ("tag 1 for edition 2", |plant, _| changed(plant, |fields| fields[0].0 = 1)),
    ("tag 9 for edition 1", |plant, _| changed(plant, |fields| fields[0].0 = 9)),
    ("tag 2 for edition 2", |plant, _| changed(plant, |fields| fields[0].0 = plant.words()[EDITION_AT] as u8)),
    ("the edition as a fifth word of the head", |plant, _| {
        changed(plant, |fields| fields[0].1.push(plant.words()[EDITION_AT]))
    }),
    ("the cuts left out", |plant, _| with_cuts(plant, |_| vec![])),
    ("the cut of location 0 left out", |plant, _| {
        with_cuts(plant, |cuts| cuts.into_iter().filter(|(_, cut)| cut[0] != 0).collect())
    }),
    ("the last location's cut left out", |plant, _| {
        let last = plant.sizes.locations as i32 - 1;
        with_cuts(plant, |cuts| cuts.into_iter().filter(|(_, cut)| cut[0] != last).collect())
    }),
    ("cuts of variable 0 left out", |plant, _| {
        with_cuts(plant, |cuts| cuts.into_iter().filter(|(_, cut)| cut[1] != 0).collect())
    }),
    ("cuts in descending order", |plant, _| with_cuts(plant, |cuts| cuts.into_iter().rev().collect())),
    ("cuts before the forbidden boxes", |plant, _| by_tags(plant, [1, 2, 3, 8, 4])),
    ("forbidden boxes before switches", |plant, _| by_tags(plant, [1, 2, 4, 3, 8])),
    ("an uncut location as a cut of variable -1", |plant, _| uncut_as_cuts(plant)),
    ("cuts numbered without the uncut locations", |plant, _| {
        with_cuts(plant, |cuts| (0..).zip(cuts).map(|(l, (_, cut))| (8, vec![l, cut[1], cut[2]])).collect())
    }),
    ("a cut's value before its variable", |plant, _| {
        with_cuts(plant, |cuts| cuts.into_iter().map(|(_, cut)| (8, vec![cut[0], cut[2], cut[1]])).collect())
    }),
    ("low byte of words first", |plant, _| in_bytes_by(&fields(plant), length_bytes, i32::to_le_bytes)),
    ("low byte of lengths first", |plant, _| {
        in_bytes_by(&fields(plant), |length| (length as u16).to_le_bytes(), word_bytes)
    }),
    ("lengths in words", |plant, _| in_bytes_by(&fields(plant), |length| length_bytes(length / 4), word_bytes)),
    ("lengths with tag and length", |plant, _| {
        in_bytes_by(&fields(plant), |length| length_bytes(length + 3), word_bytes)
    }),
    ("words without their sign", |plant, _| {
        in_bytes_by(&fields(plant), length_bytes, |word| word_bytes(word & i32::MAX))
    }),
    ("words of 24 bits", |plant, _| {
        in_bytes_by(&fields(plant), length_bytes, |word| word_bytes((word as u32 & 0xFF_FFFF) as i32))
    }),
    ("start parts for start boxes", |plant, _| of_words(&trimmed(plant))),
    ("the lows of reset ranges", |plant, _| of_words(&with_ranges(plant, lows_alone))),
    ("start flag 0 without its zeros", |plant, _| without_zeros(plant)),
    ("the words behind the model too", with_words_behind),
];

// ---------------------------------------------------------------- the questions

/// The bytes of a model's file with so many cuts.
fn bytes_with(plant: &Plant, cuts: usize) -> usize {
    let (n, counts) = (plant.sizes.n, plant.sizes);
    let records = counts.locations * (7 + 24 * n) + counts.switches * (27 + 16 * n) + counts.forbidden * (7 + 8 * n);
    19 + records + 15 * cuts
}

/// The model's questions, then 40 of a buffer that is to have so many bytes.
fn asked<'a>(list: &'a [i32], room: usize, due: fn(&Plant) -> usize) -> Result<Plant<'a>, u32> {
    let plant = Plant::from_words(list)?;
    if room < due(&plant) {
        return Err(40);
    }
    Ok(plant)
}

fn own_bytes(plant: &Plant) -> usize {
    bytes_with(plant, plant.cuts())
}

/// The right questions, with this number for 40.
fn forty_as(list: &[i32], room: usize, number: u32) -> Result<Plant<'_>, u32> {
    (RIGHT.ask)(list, room).map_err(|given| if given == 40 { number } else { given })
}

/// 40 where one of these numbers is due and the buffer has not even the bytes of the head and the locations.
fn forty_before(list: &[i32], room: usize, later: fn(u32) -> bool) -> Result<Plant<'_>, u32> {
    (RIGHT.ask)(list, room).map_err(|number| match ask_head(list) {
        Ok((sizes, _)) if later(number) && room < 19 + sizes.locations * (7 + 24 * sizes.n) => 40,
        _ => number,
    })
}

/// 40 first of all, of a buffer that holds no file.
fn forty_first(list: &[i32], room: usize) -> Result<Plant<'_>, u32> {
    if room < 50 {
        return Err(40);
    }
    (RIGHT.ask)(list, room)
}

/// A list with words behind the model is refused.
fn words_behind_refused(list: &[i32], room: usize) -> Result<Plant<'_>, u32> {
    let plant = (RIGHT.ask)(list, room)?;
    if plant.words().len() < list.len() {
        return Err(5);
    }
    Ok(plant)
}

/// The words behind the model are counted too.
fn room_for_words_behind(list: &[i32], room: usize) -> Result<Plant<'_>, u32> {
    let plant = Plant::from_words(list)?;
    if room < own_bytes(&plant) + 4 * (list.len() - plant.words().len()) {
        return Err(40);
    }
    Ok(plant)
}

/// Each with whether a model's way there and back finds it: there, only models that pass their questions are written.
const WRONG_QUESTIONS: [(&str, Ask, bool); 16] = [
    ("40 by the longest file", |list, room| asked(list, room, |_| MOST_MODEL_BYTES), true),
    ("40 with one byte too few", |list, room| asked(list, room, |plant| own_bytes(plant) - 1), true),
    ("40 with one byte too many", |list, room| asked(list, room, |plant| own_bytes(plant) + 1), true),
    ("40 with a cut in every location", |list, room| asked(list, room, |p| bytes_with(p, p.sizes.locations)), true),
    ("40 without cuts", |list, room| asked(list, room, |plant| bytes_with(plant, 0)), true),
    ("40 by the words alone", |list, room| asked(list, room, |plant| 4 * plant.words().len()), true),
    ("40 by the room of a table file", |list, room| asked(list, room, |plant| plant.table_file_room()), true),
    ("40 not asked", |list, _| asked(list, 0, |_| 0), true),
    ("39 for 40", |list, room| forty_as(list, room, 39), true),
    ("5 for 40", |list, room| forty_as(list, room, 5), true),
    ("40 before the records", |list, room| forty_before(list, room, |number| number >= 11 && number != 43), false),
    ("40 before 46", |list, room| forty_before(list, room, |number| number == 46), false),
    ("40 before 5 of the whole", |list, room| forty_before(list, room, |number| number == 5), false),
    ("40 first of all", forty_first, false),
    ("words behind the model refused", words_behind_refused, true),
    ("room for the words behind the model", room_for_words_behind, true),
];

// ---------------------------------------------------------------- memory and values

/// Puts what fits of a file into the buffer, and gives its length.
fn put(file: &[u8], buffer: &mut [u8]) -> usize {
    buffer.iter_mut().zip(file).for_each(|(place, byte)| *place = *byte);
    file.len()
}

const WRONG_LEFT: [(&str, Leave); 6] = [
    ("the rest zeroed", |file, buffer| {
        buffer.fill(0);
        put(file, buffer)
    }),
    ("a byte behind the file zeroed", |file, buffer| put(&[file, &[0]].concat(), buffer) - 1),
    ("the last byte not written", |file, buffer| put(&file[..file.len() - 1], buffer) + 1),
    ("at the buffer's end", |file, buffer| {
        let from = buffer.len() - file.len();
        put(file, &mut buffer[from..])
    }),
    ("the buffer's length as the value", |file, buffer| put(file, buffer).max(buffer.len())),
    ("the words as the value", |file, buffer| put(file, buffer) / 4),
];

/// What fits of the file is written.
fn what_fits(number: u32, list: &[i32], buffer: &mut [u8]) -> usize {
    if number == 40 {
        put(&of_words(list), buffer);
    }
    0
}

fn zeroed_by_40(number: u32, _: &[i32], buffer: &mut [u8]) -> usize {
    if number == 40 {
        buffer.fill(0);
    }
    0
}

/// As the reader zeroes its buffer.
fn zeroed_by_the_records(number: u32, _: &[i32], buffer: &mut [u8]) -> usize {
    if matches!(number, 11..=19 | 46) {
        buffer.fill(0);
    }
    0
}

fn due_length(number: u32, list: &[i32], _: &mut [u8]) -> usize {
    if number == 40 {
        return of_words(list).len();
    }
    0
}

/// Each with whether a model's way there and back finds it.
const WRONG_REFUSALS: [(&str, Refuse, bool); 6] = [
    ("what fits is written with 40", what_fits, true),
    ("the buffer zeroed by 40", zeroed_by_40, true),
    ("the buffer zeroed by 11 to 19 and 46", zeroed_by_the_records, false),
    ("the due length as the value of 40", due_length, true),
    ("the number as the value of a refusal", |number, _, _| number as usize, true),
    ("1 as the value of 46", |number, _, _| (number == 46) as usize, false),
];

/// All of them, each with whether a model's way there and back finds it.
fn wrong() -> Vec<(&'static str, Writer, bool)> {
    let files = WRONG_FILES.map(|(name, file)| (name, Writer { file, ..RIGHT }, true));
    let questions = WRONG_QUESTIONS.map(|(name, ask, alone)| (name, Writer { ask, ..RIGHT }, alone));
    let left = WRONG_LEFT.map(|(name, leave)| (name, Writer { leave, ..RIGHT }, true));
    let refusals = WRONG_REFUSALS.map(|(name, refuse, alone)| (name, Writer { refuse, ..RIGHT }, alone));
    files.into_iter().chain(questions).chain(left).chain(refusals).collect()
}

#[test]
fn the_third_writer_without_a_mistake_agrees() {
    WRITER.set(RIGHT);
    assert_eq!(found_after(written, 1_500), None);
}

#[test]
fn every_wrong_writer_is_found() {
    for (name, writer, _) in wrong() {
        WRITER.set(writer);
        must_be_found(name, written);
    }
}

// ---------------------------------------------------------------- there and back

/// How many random models went there and back, some with words behind them, until one did not come back; None if all
/// did.
fn lost_after(answer: Answer, models: u64) -> Option<u64> {
    let mut random = Random::new(12);
    let mut calls = Alone { answer, random: Random::new(13) };
    (1..=models).find(|number| {
        let behind = vec![1; *number as usize % 3];
        let list = [random_model(&mut random).words(), behind].concat();
        round_trip(&mut calls, &list, 1 + random.below(20)).is_err()
    })
}

#[test]
fn the_right_writer_comes_back() {
    assert_eq!(lost_after(answer, 3_000), None);
    WRITER.set(RIGHT);
    assert_eq!(lost_after(written, 3_000), None);
}

#[test]
fn what_does_not_come_back() {
    for (name, writer, alone) in wrong() {
        WRITER.set(writer);
        let lost = lost_after(written, 2_000);
        println!("{name}: lost with model {lost:?}");
        assert_eq!(lost.is_some(), alone, "{name}");
    }
}

/// The reader with something done to what it read.
fn after_reading(call: Call, input: &Input, lent: &mut Lent, change: fn(&mut [i32], &mut u64)) -> u32 {
    let number = answer(call, input, lent);
    if call == Call::ReadModel && number == 100 {
        let mut value = *lent.value();
        change(lent.words(Slice::Words), &mut value);
        *lent.value() = value;
    }
    number
}

fn read_as_edition_1(call: Call, input: &Input, lent: &mut Lent) -> u32 {
    after_reading(call, input, lent, |words, _| words[EDITION_AT] = Edition::One.word())
}

fn read_without_cuts(call: Call, input: &Input, lent: &mut Lent) -> u32 {
    after_reading(call, input, lent, |words, _| {
        let (sizes, _) = ask_head(words).expect("what was read has a head");
        let cuts = words[sizes.cut_at(0)..sizes.model_words()].chunks_exact_mut(2);
        cuts.for_each(|cut| cut.copy_from_slice(&[-1, 0]));
    })
}

fn read_and_the_rest_zeroed(call: Call, input: &Input, lent: &mut Lent) -> u32 {
    after_reading(call, input, lent, |words, value| words[*value as usize..].fill(0))
}

fn read_with_another_value(call: Call, input: &Input, lent: &mut Lent) -> u32 {
    after_reading(call, input, lent, |words, value| *value = words.len() as u64)
}

#[test]
fn what_wrong_readers_do_not_bring_back() {
    for wrong in [read_as_edition_1, read_without_cuts, read_and_the_rest_zeroed, read_with_another_value] {
        assert!(lost_after(wrong, 100).is_some());
    }
}
