//! Runs many random models and damaged inputs through this implementation's own invariants.
//!
//!     cargo run --release --offline --bin selftest [models] [seed]
//!
//! Stops with a panic at the first breach. What is asked of every random model:
//!
//! * its file, as it is written into buffers of its length and of others, reads back as its words, and a file that
//!   reads is what writing gives;
//! * the answer, k and table are those of the literal passes (module `plain`), k being the
//!   first index; k is at most the ceiling, and below it if unfinished;
//! * buffers after the call stand as document 01 says;
//! * safe: the checker accepts the table; unknown: it refuses that table, the table at rest
//!   and random ones; the host's two calls say the same as the calls on words;
//! * runs: every random run is one; on safe models none of its configurations is forbidden
//!   and each is reached by one delay from a part of the answer's table;
//! * quote: the answer keeps to it; its ceiling is that by the widths of each location;
//! * a plant made narrower is narrower; pass by pass its table lies inside the model's, and it accepts each table that
//!   the model does; a plant made narrower but for one condition is not, by this condition alone;
//! * a plant with further cuts is finer; pass by pass its table lies inside the model's, divided, and it accepts each
//!   table that the model does, divided; one that breaks this is not finer;
//! * damaged inputs: lent memory after each refusal is unchanged or zero, as its number says;
//! * desk: over a list of calls from a fresh desk, passes is the sum of the passes answered.

use std::collections::BTreeMap;

use second::held::simulate::{travel, Travelled};
use second::inputs::damage::*;
use second::inputs::draft::Draft;
use second::inputs::generate::*;
use second::inputs::narrowing::{narrowed, widened, BREAKS, WAYS};
use second::inputs::pumps::pump_model;
use second::inputs::random::Random;
use second::inputs::ranges::{any_range, ranged_model};
use second::inputs::refining::{refined, to_refine, unrefined, FURTHER, UNREFINED};
use second::inputs::starts::any_crosses;
use second::reference::analysis::Answer;
use second::reference::before::lies_inside;
use second::reference::calls::{self, Buffers};
use second::reference::ceiling;
use second::reference::checker::ask_table;
use second::reference::desk::Desk;
use second::reference::files::{model_file, model_file_bytes, table_file, MOST_MODEL_BYTES};
use second::reference::finer::{divided, finer};
use second::reference::host::{self, MOST_MODEL_WORDS};
use second::reference::model::{Edition, Plant, HEAD_WORDS};
use second::reference::narrower::{broken, narrower};
use second::reference::plain;
use second::reference::quote::{by_widths, Taken};

const MODELS: u64 = 10_000;
const SEED: u64 = 0x01_9912;

/// Sets the random numbers of further cuts apart from the others.
const FURTHER_SEED: u64 = 0x12;

/// Passes for which tables of pairs are held to each other at most.
const PAIR_PASSES: u32 = 20;

/// Calls by call and number; 0 stands for an answer or acceptance.
type Seen = BTreeMap<&'static str, BTreeMap<u32, u64>>;

#[derive(Default)]
struct Counts {
    answers: BTreeMap<&'static str, u64>,
    by_n: [u64; 7],
    /// Models with a start box that sticks out of its invariant.
    crossing: u64,
    /// Models of edition 2, and models with a reset range.
    second_edition: u64,
    ranged: u64,
    passes: u64,
    most_passes: u32,
    /// Answers by k: 0, 1, 2, 3 to 5, 6 to 10, 11 to 100, more.
    by_passes: [u64; 7],
    literal_passes: u64,
    /// Locations whose share of the ceiling was held to their widths: without a cut, and with one.
    by_widths: [u64; 2],
    travelled: Travelled,
    tables_refused: u64,
    /// Narrower plants: by the ways in which they were made, their tables that were held to the model's, pass by pass,
    /// and those of the model that they accept too; and plants with one condition broken.
    ways: BTreeMap<&'static str, u64>,
    pair_passes: u64,
    pair_tables: u64,
    breaks: BTreeMap<&'static str, u64>,
    /// The same of plants with further cuts, by in how many locations.
    further: BTreeMap<&'static str, u64>,
    finer_passes: u64,
    finer_tables: u64,
    unrefined: BTreeMap<&'static str, u64>,
    desk_calls: u64,
    seen: Seen,
}

fn note<T>(seen: &mut Seen, call: &'static str, outcome: &Result<T, u32>) {
    let number = match outcome {
        Ok(_) => 0,
        Err(refusal) => *refusal,
    };
    *seen.entry(call).or_default().entry(number).or_default() += 1;
}

fn random_words(random: &mut Random, length: usize) -> Vec<i32> {
    (0..length).map(|_| random.next() as i32).collect()
}

fn random_bytes(random: &mut Random, length: usize) -> Vec<u8> {
    (0..length).map(|_| random.next() as u8).collect()
}

/// Read a model into a buffer, and ask that the buffer stands as its number says.
fn read_model(random: &mut Random, counts: &mut Counts, file: &[u8], length: usize) -> Option<Vec<i32>> {
    let before = random_words(random, length);
    let (outcome, after) = calls::read_model(file, before.clone());
    note(&mut counts.seen, "read model", &outcome);
    match outcome {
        Ok(count) => {
            assert_eq!(after[count..], before[count..]);
            let words = after[..count].to_vec();
            assert_eq!(model_file(&words), file, "a file that reads is what writing gives");
            assert!(Plant::from_words(&words).is_ok());
            Some(words)
        }
        Err(6..=8 | 11..=19 | 46) => {
            assert!(after.iter().all(|&w| w == 0));
            None
        }
        Err(number) => {
            assert!((1..=5).contains(&number));
            assert_eq!(after, before);
            None
        }
    }
}

/// Write a model into a buffer, and ask that the buffer stands as its number says, and that what was written reads as
/// the model's words. Gives how many bytes it has.
fn write_model(random: &mut Random, counts: &mut Counts, list: &[i32], length: usize) -> Result<usize, u32> {
    let before = random_bytes(random, length);
    let (outcome, after) = calls::write_model(list, before.clone());
    note(&mut counts.seen, "write model", &outcome);
    match outcome {
        Ok(count) => {
            let plant = Plant::from_words(list).expect("what is written passes its questions");
            assert_eq!(count, model_file_bytes(&plant));
            assert_eq!(after[count..], before[count..]);
            let (read, words) = calls::read_model(&after[..count], vec![9; plant.words().len()]);
            assert_eq!((read, &words[..]), (Ok(words.len()), plant.words()));
        }
        Err(_) => assert_eq!(after, before),
    }
    outcome
}

/// Read a table, and ask that the buffer stands as its number says.
fn read_table(random: &mut Random, counts: &mut Counts, model: &[i32], file: &[u8], length: usize) {
    let before = random_words(random, length);
    let (outcome, after) = calls::read_table(model, file, before.clone());
    note(&mut counts.seen, "read table", &outcome);
    match outcome {
        Ok(count) => {
            assert_eq!(after[count..], before[count..]);
            let plant = Plant::from_words(model).unwrap();
            assert_eq!(count, plant.table_words());
            assert_eq!(table_file(&plant, &after[..count]), file, "a file that reads is what writing gives");
        }
        Err(32 | 35..=38) => assert!(after.iter().all(|&w| w == 0)),
        Err(number) => {
            assert!(matches!(number, 2..=5 | 11..=20 | 43 | 46));
            assert_eq!(after, before);
        }
    }
}

/// The quote of a model, and what its answer took.
fn quoted(counts: &mut Counts, plant: &Plant, taken: &Taken) {
    let outcome = calls::quote(plant.words());
    note(&mut counts.seen, "quote", &outcome);
    let quote = outcome.expect("a model that passes its questions is quoted");
    assert!(quote.holds(taken), "{quote:?}, {taken:?}");
    let (mut sum, mut cuts) = (0, 0);
    for l in 0..plant.sizes.locations {
        let location = plant.location(l);
        assert_eq!(ceiling::of_location(plant, l), by_widths(&location), "{location:?}");
        sum += by_widths(&location);
        cuts += location.cut.is_some() as u64;
    }
    assert_eq!(quote.ceiling, sum);
    // Both pieces of a face get the cut's value in one pass, or are never whole.
    let faces_in_two_pieces = cuts * 2 * (plant.sizes.n as u64 - 1);
    assert!(taken.passes + faces_in_two_pieces <= quote.ceiling, "{quote:?}, {taken:?}");
    counts.by_widths[0] += plant.sizes.locations as u64 - cuts;
    counts.by_widths[1] += cuts;
}

/// A random model, of any of the ways in which they are made here.
fn any_model(random: &mut Random) -> Draft {
    match random.below(8) {
        0 => crossing_model(random),
        1 => pump_model(random),
        2 => ranged_model(random),
        _ => random_model(random),
    }
}

fn note_model(counts: &mut Counts, plant: &Plant) {
    counts.crossing += any_crosses(plant) as u64;
    counts.second_edition += (plant.edition == Edition::Two) as u64;
    counts.ranged += any_range(plant) as u64;
    counts.by_n[plant.sizes.n] += 1;
}

/// The model's file is read, and written into buffers of several lengths.
fn file_case(random: &mut Random, counts: &mut Counts, words: &[i32], file: &[u8], spare: usize) {
    assert_eq!(read_model(random, counts, file, words.len() + spare), Some(words.to_vec()));
    let bytes = file.len();
    for (length, due) in [(bytes, Ok(bytes)), (bytes + 1 + spare, Ok(bytes)), (bytes - 1, Err(40)), (0, Err(40))] {
        assert_eq!(write_model(random, counts, words, length), due);
    }
}

fn note_answer(counts: &mut Counts, answer: Answer, k: u32) {
    *counts.answers.entry(answer.word()).or_default() += 1;
    counts.passes += k as u64;
    counts.most_passes = counts.most_passes.max(k);
    counts.by_passes[match k {
        0..=2 => k as usize,
        3..=5 => 3,
        6..=10 => 4,
        11..=100 => 5,
        _ => 6,
    }] += 1;
}

/// A random model that is analysed under a limit.
struct Tried<'a> {
    plant: &'a Plant<'a>,
    file: &'a [u8],
    limit: u32,
    /// How much longer than due most of its buffers are.
    spare: usize,
}

/// What the analysis of a model gave.
struct Found {
    answer: Answer,
    k: u32,
    /// The table buffer, which begins with the answer's table.
    buffer: Vec<i32>,
    /// How many words the answer's table has.
    size: usize,
}

impl Found {
    /// The answer's table.
    fn table(&self) -> &[i32] {
        &self.buffer[..self.size]
    }
}

/// The analysis, in buffers of the due length or longer: they stand as document 01 says, and k keeps to limit and
/// ceiling.
fn analysis_case(random: &mut Random, counts: &mut Counts, tried: &Tried) -> Found {
    let (plant, limit, size) = (tried.plant, tried.limit, tried.plant.table_words());
    let spare_work = random.below(4);
    let table = random_words(random, size + tried.spare);
    let lent = Buffers { table, work: random_words(random, size + spare_work) };
    let (outcome, after) = calls::analysis(plant.words(), limit, lent.clone());
    note(&mut counts.seen, "analysis", &outcome);
    let (answer, k) = outcome.expect("a model with buffers of its size is answered");
    assert_eq!(after.table[size..], lent.table[size..]);
    assert_eq!(after.work, vec![0; lent.work.len()]);
    note_answer(counts, answer, k);
    assert!(k <= limit);
    let ceiling = ceiling::of_plant(plant);
    assert!(k as u64 <= ceiling);
    assert!(answer != Answer::Unfinished || (k == limit && (k as u64) < ceiling));
    Found { answer, k, buffer: after.table, size }
}

/// The answer by the literal passes, k, and the words of table k.
fn literal_answer(counts: &mut Counts, plant: &Plant, limit: u32) -> (Answer, u32, Vec<i32>) {
    let mut faces = plain::from_words(plant, &vec![0; plant.table_words()]);
    let mut index = 0;
    let found = loop {
        if plain::forbidden_touched(plant, &faces) {
            break Answer::Unknown;
        }
        let next = plain::pass(plant, &faces);
        counts.literal_passes += 1;
        if next == faces {
            break Answer::Safe;
        }
        if index == limit {
            break Answer::Unfinished;
        }
        faces = next;
        index += 1;
    };
    (found, index, plain::to_words(plant, &faces))
}

/// The checker, and the host's check of the table's file: accepted exactly if the answer is safe.
fn check_case(counts: &mut Counts, tried: &Tried, found: &Found, written: &[u8]) {
    let accepted = calls::checker(tried.plant.words(), &found.buffer);
    note(&mut counts.seen, "checker", &accepted);
    assert_eq!(accepted.is_ok(), found.answer == Answer::Safe);
    let number = accepted.err().map_or(100, u64::from);
    assert_eq!(calls::check(tried.file, written), number);
    assert_eq!(host::check_quick(tried.file, written), number);
}

/// A buffer begins with what was written, and its rest stands as before. A breach is shown at the caller's line.
#[track_caller]
fn hold_written(buffer: &[u8], written: &[u8], before: &[u8]) {
    assert_eq!(buffer[..written.len()], *written);
    assert_eq!(buffer[written.len()..], before[written.len()..]);
}

/// The host's decide gives the analysis's answer and the table's file, with the quick touching too.
fn decide_case(tried: &Tried, found: &Found, written: &[u8], before: &[u8]) {
    let (number, bytes) = calls::decide(tried.file, before.to_vec(), tried.limit);
    assert_eq!(number, (found.answer.code() as u64) << 32 | found.k as u64);
    hold_written(&bytes, written, before);
    let mut quick = before.to_vec();
    assert_eq!(host::decide_quick(tried.file, &mut quick, tried.limit), number);
    assert_eq!(quick, bytes);
}

/// The answer's table in the checker, in the host's calls, written and read again. Gives its file's bytes.
fn table_case(random: &mut Random, counts: &mut Counts, tried: &Tried, found: &Found) -> usize {
    let (plant, words) = (tried.plant, tried.plant.words());
    let written = table_file(plant, found.table());
    check_case(counts, tried, found, &written);
    let before = random_bytes(random, plant.table_file_room() + tried.spare);
    decide_case(tried, found, &written, &before);
    let (length, bytes) = calls::write_table(words, &found.buffer, before.clone());
    note(&mut counts.seen, "write table", &length);
    assert_eq!(length, Ok(written.len()));
    hold_written(&bytes, &written, &before);
    read_table(random, counts, words, &written, found.size + tried.spare);
    written.len()
}

/// The table at rest and a random one: none is accepted of an unknown model, and of a safe one the table at rest is.
/// Gives the table at rest, or table 0 after as many passes as one may ask for.
fn other_tables(random: &mut Random, counts: &mut Counts, plant: &Plant, answer: Answer) -> Vec<i32> {
    let mut rest = vec![0; plant.table_words()];
    let at_rest = close(plant, &mut rest, pass_budget(plant));
    let mut other = random_table(random, plant);
    close(plant, &mut other, 40);
    if answer == Answer::Unknown {
        for list in [&rest, &other] {
            assert!(ask_table(plant, list).is_err());
            counts.tables_refused += 1;
        }
    }
    if at_rest && answer != Answer::Unfinished {
        assert_eq!(ask_table(plant, &rest).is_ok(), answer == Answer::Safe);
    }
    rest
}

/// Pass by pass the table of a narrower plant lies inside the first's.
fn tables_inside(counts: &mut Counts, first: &Plant, second: &Plant) {
    let (mut inner, mut outer) = (vec![0; first.table_words()], vec![0; first.table_words()]);
    for _ in 0..PAIR_PASSES {
        let at_rest = close(first, &mut outer, 1) & close(second, &mut inner, 1);
        assert!(lies_inside(first, &inner, &outer), "{:?} {:?}", first.words(), second.words());
        counts.pair_passes += 1;
        if at_rest {
            break;
        }
    }
}

/// A narrower plant, and one that breaks a condition.
fn narrower_case(random: &mut Random, counts: &mut Counts, first: &Plant, tables: [&[i32]; 2]) {
    let made = narrowed(random, first);
    let second = Plant::from_words(&made.words).expect("a narrower plant passes its questions");
    assert!(narrower(first, &second), "{:?} {:?}", first.words(), made.words);
    made.ways.iter().for_each(|way| *counts.ways.entry(way).or_default() += 1);
    tables_inside(counts, first, &second);
    for table in tables.into_iter().filter(|table| ask_table(first, table).is_ok()) {
        assert_eq!(ask_table(&second, table), Ok(()), "{:?} {:?} {table:?}", first.words(), made.words);
        counts.pair_tables += 1;
    }
    if let Some((words, name, condition)) = widened(random, first) {
        let second = Plant::from_words(&words).expect("a plant that breaks a condition passes its questions");
        assert_eq!(broken(first, &second), [condition], "{name}: {:?} {words:?}", first.words());
        *counts.breaks.entry(name).or_default() += 1;
    }
}

/// Pass by pass the table of a plant with further cuts lies inside the first's, divided.
fn tables_divided(counts: &mut Counts, first: &Plant, second: &Plant) {
    let (mut inner, mut outer) = (vec![0; second.table_words()], vec![0; first.table_words()]);
    for _ in 0..PAIR_PASSES {
        let at_rest = close(first, &mut outer, 1) & close(second, &mut inner, 1);
        let whole = divided(first, second, &outer);
        assert!(lies_inside(second, &inner, &whole), "{:?} {:?}", first.words(), second.words());
        counts.finer_passes += 1;
        if at_rest {
            break;
        }
    }
}

/// A plant, as it is or with cuts taken away, with further cuts, and one that is not the first with further cuts.
fn finer_case(random: &mut Random, counts: &mut Counts, plant: &Plant) {
    let (words, known) = to_refine(random, plant);
    let first = &Plant::from_words(&words).expect("a plant with fewer cuts passes its questions");
    let (words, way) = refined(random, first, &known);
    let second = Plant::from_words(&words).expect("a plant with further cuts passes its questions");
    assert!(finer(first, &second), "{:?} {words:?}", first.words());
    *counts.further.entry(way).or_default() += 1;
    tables_divided(counts, first, &second);
    let mut tables = [vec![0; first.table_words()], random_table(random, first)];
    for table in &mut tables {
        close(first, table, pass_budget(first).min(200));
    }
    for table in tables.iter().filter(|table| ask_table(first, table).is_ok()) {
        let table = divided(first, &second, table);
        assert_eq!(ask_table(&second, &table), Ok(()), "{:?} {words:?} {table:?}", first.words());
        counts.finer_tables += 1;
    }
    if let Some((words, name)) = unrefined(random, first) {
        let second = Plant::from_words(&words).expect("such a plant passes its questions");
        assert!(!finer(first, &second), "{name}: {:?} {words:?}", first.words());
        *counts.unrefined.entry(name).or_default() += 1;
    }
}

/// Random runs, held to the answer and its table.
fn runs_case(random: &mut Random, counts: &mut Counts, plant: &Plant, found: &Found) {
    let travelled = travel(plant, found.table(), random, 3);
    if found.answer == Answer::Safe {
        assert_eq!(travelled.forbidden, 0, "a forbidden box is met on a safe model");
        assert_eq!(travelled.unreached, 0, "no part reaches a configuration");
    }
    counts.travelled.add(&travelled);
}

/// One random model: all that is asked of it, then damaged inputs and desk calls. Further cuts have random numbers of
/// their own.
fn one_model(random: &mut Random, further: &mut Random, counts: &mut Counts) {
    let words = any_model(random).words();
    let plant = Plant::from_words(&words).expect("a random model passes its questions");
    note_model(counts, &plant);
    let file = model_file(&words);
    let spare = random.below(5);
    file_case(random, counts, &words, &file, spare);

    let limit = random_limit(random, &plant);
    let tried = Tried { plant: &plant, file: &file, limit, spare };
    let found = analysis_case(random, counts, &tried);
    let (answer, index, literal) = literal_answer(counts, &plant, limit);
    assert_eq!((found.answer, found.k), (answer, index));
    assert_eq!(found.table(), literal);
    let bytes = table_case(random, counts, &tried, &found);
    quoted(counts, &plant, &Taken { passes: found.k as u64, words: literal.len() as u64, bytes: bytes as u64 });

    let rest = other_tables(random, counts, &plant, answer);
    narrower_case(random, counts, &plant, [&rest, found.table()]);
    finer_case(further, counts, &plant);
    runs_case(random, counts, &plant, &found);
    damaged_files(random, counts, &plant, &file);
    damaged_lists(random, counts, &plant, [&rest, found.table()]);
    desk_list(random, counts, &words, found.size, limit.min(20));
    desk_near_its_end(random, counts, &words, found.size, limit.min(20));
}

/// Damaged model files.
fn damaged_files(random: &mut Random, counts: &mut Counts, plant: &Plant, file: &[u8]) {
    let words = plant.words();
    for _ in 0..4 {
        let mut bytes = if random.chance(2, 3) { edited_model_file(random, plant) } else { file.to_vec() };
        if random.chance(1, 2) {
            damage_bytes(random, &mut bytes);
        }
        let length = match random.below(8) {
            0 => random.below(words.len() + 1),
            1 => MOST_MODEL_WORDS,
            _ => words.len() + random.below(3),
        };
        read_model(random, counts, &bytes, length);
    }
}

/// The model's words, edited, shortened or lengthened.
fn damaged_words(random: &mut Random, plant: &Plant) -> Vec<i32> {
    let mut list = plant.words().to_vec();
    if random.chance(2, 3) {
        for (index, word) in model_edit(random, plant) {
            list[index] = word;
        }
    }
    match random.below(6) {
        0 => list.truncate(random.below(list.len() + 1)),
        1 => list.truncate(random.below(HEAD_WORDS + 2)),
        2 => list.extend([1, 2, 3]),
        _ => {}
    }
    list
}

/// The number by which the model's questions refuse a list, if they do: the same of ceiling, quote and writing.
fn model_number(random: &mut Random, counts: &mut Counts, list: &[i32]) -> Option<u32> {
    let outcome = calls::ceiling(list);
    note(&mut counts.seen, "ceiling", &outcome);
    let number = outcome.err();
    let outcome = calls::quote(list);
    note(&mut counts.seen, "quote", &outcome);
    assert_eq!(outcome.err(), number);
    let outcome = write_model(random, counts, list, 0);
    assert_eq!(outcome.err(), number.or(Some(40)));
    let outcome = write_model(random, counts, list, MOST_MODEL_BYTES);
    assert_eq!(outcome.err(), number);
    number
}

/// A length: the one that is due, or in one case of six a shorter one.
fn due_or_shorter(random: &mut Random, due: usize) -> usize {
    if random.chance(1, 6) {
        random.below(due)
    } else {
        due
    }
}

/// The analysis of damaged words, in buffers for a table of `size` words or shorter ones.
fn damaged_analysis(random: &mut Random, counts: &mut Counts, list: &[i32], size: usize, model_number: Option<u32>) {
    let (table_length, work_length) = (due_or_shorter(random, size), due_or_shorter(random, size));
    let lent = Buffers { table: random_words(random, table_length), work: random_words(random, work_length) };
    let (outcome, after) = calls::analysis(list, random.below(8) as u32, lent.clone());
    note(&mut counts.seen, "analysis", &outcome);
    if outcome.is_err() {
        assert_eq!(after, lent);
    }
    if model_number.is_some() {
        assert_eq!(outcome.err(), model_number);
    }
}

/// A table with one change, and in one case of eight shortened.
fn damaged_table(random: &mut Random, plant: &Plant, table: &[i32]) -> Vec<i32> {
    let mut damaged = table.to_vec();
    damage_table(random, plant, &mut damaged);
    if random.chance(1, 8) {
        damaged.truncate(random.below(damaged.len() + 1));
    }
    damaged
}

/// Write a table, and ask that the buffer stands if it is refused, and that what was written reads as the same table.
fn write_table(counts: &mut Counts, model: &[i32], table: &[i32], length: usize) {
    let before = vec![0xC3; length];
    let (outcome, after) = calls::write_table(model, table, before.clone());
    note(&mut counts.seen, "write table", &outcome);
    match outcome {
        Err(_) => assert_eq!(after, before),
        Ok(count) => {
            let size = Plant::from_words(model).unwrap().table_words();
            let (outcome, read) = calls::read_table(model, &after[..count], vec![9; size]);
            assert_eq!(outcome, Ok(size));
            assert_eq!(read, table[..size]);
        }
    }
}

/// Damaged model words in every call that takes them but the desk's, with damaged tables as words and as files.
fn damaged_lists(random: &mut Random, counts: &mut Counts, plant: &Plant, tables: [&[i32]; 2]) {
    let size = plant.table_words();
    for _ in 0..3 {
        let list = damaged_words(random, plant);
        let model_number = model_number(random, counts, &list);
        damaged_analysis(random, counts, &list, size, model_number);

        let base = random.pick(&tables);
        let damaged = damaged_table(random, plant, base);
        let outcome = calls::checker(&list, &damaged);
        note(&mut counts.seen, "checker", &outcome);
        if model_number.is_some() {
            assert_eq!(outcome.err(), model_number);
        }
        let length = due_or_shorter(random, plant.table_file_room());
        write_table(counts, &list, &damaged, length);

        let base = random.pick(&tables);
        let (bytes, _) = damaged_table_file(random, plant, base);
        let length = if random.chance(1, 8) { random.below(size) } else { size + random.below(3) };
        read_table(random, counts, &list, &bytes, length);
    }
}

/// A list of desk calls from a fresh desk, some of them refused.
fn desk_list(random: &mut Random, counts: &mut Counts, words: &[i32], size: usize, limit: u32) {
    let mut desk = Desk::default();
    let (mut jobs, mut passes) = (0u64, 0u64);
    for _ in 0..3 {
        let length = if random.chance(1, 5) { size - 1 } else { size };
        let limit = if random.chance(1, 5) { 0 } else { limit };
        let lent = Buffers { table: vec![1; length], work: vec![2; size] };
        let (outcome, after, buffers) = calls::desk(desk, words, limit, lent.clone());
        note(&mut counts.seen, "desk", &outcome);
        counts.desk_calls += 1;
        match outcome {
            Ok((_, k)) => {
                jobs += 1;
                passes += k as u64;
            }
            Err(_) => {
                assert_eq!(after, desk);
                assert_eq!(buffers, lent);
            }
        }
        desk = after;
        assert_eq!((desk.jobs as u64, desk.passes as u64), (jobs, passes));
    }
}

/// A desk call with counters near their end.
fn desk_near_its_end(random: &mut Random, counts: &mut Counts, words: &[i32], size: usize, limit: u32) {
    let near = Desk {
        jobs: u32::MAX - random.below(2) as u32,
        passes: u32::MAX - random.below(2 * limit as usize + 2) as u32,
    };
    let lent = Buffers { table: vec![1; size], work: vec![2; size] };
    let (outcome, after, buffers) = calls::desk(near, words, limit, lent.clone());
    note(&mut counts.seen, "desk", &outcome);
    counts.desk_calls += 1;
    let fits = near.jobs < u32::MAX && limit <= u32::MAX - near.passes;
    match outcome {
        Ok((_, k)) => {
            assert!(fits);
            assert_eq!(after, Desk { jobs: near.jobs + 1, passes: near.passes + k });
        }
        Err(number) => {
            assert!(!fits);
            assert_eq!(number, 22);
            assert_eq!((after, buffers), (near, lent));
        }
    }
}

/// The numbers that each call can give, 0 for an answer.
fn possible(call: &str) -> Vec<u32> {
    let words: Vec<u32> = [0].into_iter().chain(2..=5).chain(11..=19).chain([46]).collect();
    let more: &[u32] = match call {
        "read model" => &[1, 6, 7, 8],
        "ceiling" | "quote" => &[43],
        "checker" => &[43, 20, 32, 33, 34],
        "analysis" => &[43, 20, 21],
        "read table" => &[43, 20, 35, 36, 37, 38, 32],
        "write table" => &[43, 20, 32, 39],
        "write model" => &[43, 40],
        // The desk's model questions are the analysis's; here it is called on whole models.
        "desk" => return vec![0, 20, 22],
        _ => unreachable!(),
    };
    words.into_iter().chain(more.iter().copied()).collect()
}

fn run(models: u64, seed: u64) -> Counts {
    let (mut random, mut further) = (Random::new(seed), Random::new(seed ^ FURTHER_SEED));
    let mut counts = Counts::default();
    for _ in 0..models {
        one_model(&mut random, &mut further, &mut counts);
    }
    counts
}

#[test]
fn a_short_self_test() {
    let counts = run(400, 1);
    assert!(counts.answers.len() == 3);
}

fn print_quoted(models: u64, [whole, cut]: [u64; 2]) {
    println!("shares of the ceiling held to widths: {whole} locations without a cut, {cut} with one");
    assert!(models < 1_000 || (whole > 0 && cut > 0), "no location without a cut, or none with one");
}

fn print_models(counts: &Counts) {
    println!(
        "models by n: {:?}; with a start box that crosses the wall: {}; of edition 2: {}; with a reset range: {}",
        &counts.by_n[1..],
        counts.crossing,
        counts.second_edition,
        counts.ranged
    );
}

fn print_answers(counts: &Counts) {
    println!("answers: {:?}", counts.answers);
    println!(
        "passes answered {} (at most {} in one answer), literal passes compared {}",
        counts.passes, counts.most_passes, counts.literal_passes
    );
    println!("answers by k (0, 1, 2, 3-5, 6-10, 11-100, more): {:?}", counts.by_passes);
}

fn print_pairs(models: u64, counts: &Counts) {
    println!(
        "narrower plants {:?}; tables held pass by pass {}, accepted for both {}; with one condition broken {:?}",
        counts.ways, counts.pair_passes, counts.pair_tables, counts.breaks
    );
    let all = counts.ways.len() == WAYS.len() && counts.breaks.len() == BREAKS.len() && counts.pair_tables > 0;
    assert!(models < 1_000 || all, "a way to make a plant narrower or a break did not come up");
}

fn print_cuts(models: u64, counts: &Counts) {
    println!(
        "plants with further cuts {:?}; tables held pass by pass {}, accepted for both {}; not so made {:?}",
        counts.further, counts.finer_passes, counts.finer_tables, counts.unrefined
    );
    let all =
        counts.further.len() == FURTHER.len() && counts.unrefined.len() == UNREFINED.len() && counts.finer_tables > 0;
    assert!(models < 1_000 || all, "a kind of further cuts did not come up");
}

fn print_runs(models: u64, counts: &Counts) {
    let runs = &counts.travelled;
    println!(
        "runs {}, configurations {}, delays {}, switches {} ({} to a level strictly inside a reset range, {} to a \
         fraction); in a forbidden box (of models not safe) {}",
        runs.runs, runs.configurations, runs.delays, runs.switches, runs.inside_ranges, runs.fractions, runs.forbidden
    );
    let into_ranges = counts.ranged > 0 && runs.inside_ranges > 0 && runs.fractions > 0;
    assert!(models < 1_000 || into_ranges, "no model with a reset range, or no run to the inside of one");
}

/// Prints the numbers that each call gave, which must be numbers that it can give, and those that never came up.
fn print_calls(seen: &Seen) {
    let mut missing = Vec::new();
    for (call, numbers) in seen {
        println!("{call}: {numbers:?}");
        let possible = possible(call);
        assert!(numbers.keys().all(|n| possible.contains(n) || (*call == "desk" && *n == 21)), "{call}");
        missing.extend(possible.iter().filter(|n| !numbers.contains_key(n)).map(|n| format!("{call} {n}")));
    }
    if !missing.is_empty() {
        println!("never came up: {}", missing.join(", "));
    }
}

fn main() {
    let arguments: Vec<u64> =
        std::env::args().skip(1).map(|a| a.parse().expect("arguments are numbers: models, seed")).collect();
    let models = arguments.first().copied().unwrap_or(MODELS);
    let seed = arguments.get(1).copied().unwrap_or(SEED);
    println!("seed {seed}, {models} random models");
    let counts = run(models, seed);
    print_models(&counts);
    print_answers(&counts);
    print_quoted(models, counts.by_widths);
    print_runs(models, &counts);
    print_pairs(models, &counts);
    print_cuts(models, &counts);
    println!("further tables refused on unknown models {}, desk calls {}", counts.tables_refused, counts.desk_calls);
    print_calls(&counts.seen);
    println!("all invariants hold");
}
