//! Many calls of libhost.a in one process: the answers stay what they were at first, and the
//! resident memory stays where it was after the warm-up.
//!
//!     HOST_LIB_DIR=<directory of libhost.a> \
//!         cargo run --release --offline --features host --bin soak [calls] [seed]
//!
//! A pool of valid and damaged inputs of all calls is made once, and the calls go through it over
//! and over. One desk stands all the while, from fresh on: its counters must be what the answers
//! make them. Nothing is allocated between the calls. Exit status: 0 all held; 1 an answer changed,
//! the desk's counters are wrong, or the memory grew; 3 built without the library.

use std::collections::BTreeMap;
use std::fs::File;
use std::io::Read;

use second::c_calls::exports::Call;
use second::c_calls::host_ffi;
use second::c_calls::slices::{Input, Lengths, Lent, Numbers, Slice};
use second::held::compare::MOST_ROOM;
use second::inputs::damage::{
    damage_bytes, damage_table, damaged_cuts, damaged_table_file, edited_model_file, edited_words,
};
use second::inputs::generate::{close, pass_budget, random_limit, random_model, random_table};
use second::inputs::random::Random;
use second::reference::files::{model_file, table_file};
use second::reference::model::Plant;

const CALLS: u64 = 1_000_000;
const SEED: u64 = 0x50AC;
/// Models that the pool is made from.
const MODELS: usize = 1_000;
/// The most passes that a call of the pool may take, so that many calls fit into a minute.
const MOST_PASSES: u32 = 40;
/// How often the resident memory is looked at: this many times, evenly.
const LOOKS: u64 = 100;
/// What all that is lent holds before each call: this in every byte.
const OLD: u64 = 0xC3C3_C3C3_C3C3_C3C3;
/// Words of the largest table, which has more than the largest model.
const MOST_WORDS: usize = 19_968;

/// One call with its input.
enum Asked {
    Decide { model: Vec<u8>, length: usize, limit: u32 },
    Check { model: Vec<u8>, table: Vec<u8> },
    Other { call: Call, model: Vec<i32>, table: Vec<i32>, file: Vec<u8>, limit: u32, lengths: Lengths },
}

/// What a call gave: its number, its value, and a sum over all that was lent but for the desk.
#[derive(Clone, Copy, PartialEq)]
struct Outcome {
    number: u64,
    value: u64,
    sum: u64,
}

/// All memory that is lent, with a desk that stands: of each slice the longest that is asked for.
fn whole_memory() -> Lent {
    let longest = Lengths::of_table(MOST_WORDS).with(Slice::FileRoom, MOST_ROOM);
    Lent::all(0, |slice| Numbers::made(slice, longest.of(slice), || 0))
}

/// What was given, and a sum over what was left, in which every number and its place count (FNV-1a).
fn outcome(number: u64, memory: &mut Lent) -> Outcome {
    let add = |sum: u64, part: u64| (sum ^ part).wrapping_mul(0x0100_0000_01B3);
    Outcome { number, value: *memory.value(), sum: memory.sum(0xCBF2_9CE4_8422_2325, add) }
}

/// What the inputs of one model are made from.
struct Made<'a> {
    plant: Plant<'a>,
    /// The model's file, and a damaged one.
    model: Vec<u8>,
    broken: Vec<u8>,
    /// A table's words, and their file.
    table: Vec<i32>,
    file: Vec<u8>,
    limit: u32,
}

/// The model's file with damage to its cuts or to its bytes.
fn broken_model(random: &mut Random, plant: &Plant, model: &[u8]) -> Vec<u8> {
    if random.chance(1, 4) {
        return damaged_cuts(random, plant).0;
    }
    let mut broken = model.to_vec();
    damage_bytes(random, &mut broken);
    broken
}

/// Inputs of check and decide: the model as it is, damage to what they read, a short buffer.
fn inputs_of_the_host(random: &mut Random, made: &Made, pool: &mut Vec<Asked>) {
    let Made { plant, model, limit, .. } = made;
    let (length, limit) = (plant.table_file_room(), *limit);
    let short = random.below(length);
    pool.push(Asked::Check { model: model.clone(), table: made.file.clone() });
    pool.push(Asked::Check { model: model.clone(), table: damaged_table_file(random, plant, &made.table).0 });
    pool.push(Asked::Decide { model: edited_model_file(random, plant), length, limit });
    pool.push(Asked::Decide { model: made.broken.clone(), length, limit });
    pool.push(Asked::Decide { model: model.clone(), length: short, limit });
    pool.push(Asked::Decide { model: model.clone(), length, limit });
}

/// Two inputs of another call: one as it is due, and one that may be damaged and have buffers that are one short.
fn inputs_of_a_call(random: &mut Random, made: &Made, call: Call, pool: &mut Vec<Asked>) {
    let Made { plant, table, limit, .. } = made;
    let (words, limit) = (plant.words(), *limit);
    let (file, broken) = if call == Call::ReadModel {
        (made.model.clone(), made.broken.clone())
    } else {
        (made.file.clone(), damaged_table_file(random, plant, table).0)
    };
    let due = if call == Call::ReadModel { words.len() } else { plant.table_words() };
    let room = if call == Call::WriteModel { made.model.len() } else { plant.table_file_room() };
    let mut other = table.clone();
    damage_table(random, plant, &mut other);
    let edited = if random.chance(1, 2) { edited_words(random, plant) } else { words.to_vec() };
    let whole = Lengths::of_table(due).with(Slice::FileRoom, room);
    let shorter = |lengths: Lengths, slice: Slice| lengths.with(slice, lengths.of(slice) - random.below(2));
    let short = Slice::ROOM.into_iter().fold(whole, shorter);
    let (model, table) = (words.to_vec(), table.clone());
    pool.push(Asked::Other { call, model, table, file, limit, lengths: whole });
    pool.push(Asked::Other { call, model: edited, table: other, file: broken, limit, lengths: short });
}

/// Inputs made from one model: for every call one as it is due, and others that may be damaged.
fn inputs_of_a_model(random: &mut Random, pool: &mut Vec<Asked>) {
    let words = random_model(random).words();
    let plant = Plant::from_words(&words).expect("a random model passes its questions");
    let model = model_file(&words);
    let limit = random_limit(random, &plant).min(MOST_PASSES);
    let mut table = if random.chance(1, 2) { vec![0; plant.table_words()] } else { random_table(random, &plant) };
    close(&plant, &mut table, pass_budget(&plant));
    let broken = broken_model(random, &plant, &model);
    let file = table_file(&plant, &table);
    let made = Made { plant, model, broken, table, file, limit };
    inputs_of_the_host(random, &made, pool);
    for call in Call::ALL {
        inputs_of_a_call(random, &made, call, pool);
    }
}

/// Lends these lengths, with old contents but for the desk.
fn lend(memory: &mut Lent, lengths: &Lengths) {
    memory.lend(lengths);
    memory.fill(OLD);
}

/// Makes one call. A desk call goes to the standing desk.
fn make(asked: &Asked, memory: &mut Lent) -> Outcome {
    let number = match asked {
        Asked::Decide { model, length, limit } => {
            lend(memory, &Lengths::of_file(*length));
            host_ffi::decide(model, memory.bytes(Slice::FileRoom), *limit)
        }
        Asked::Check { model, table } => {
            lend(memory, &Lengths::default());
            host_ffi::check(model, table)
        }
        Asked::Other { call, model, table, file, limit, lengths } => {
            lend(memory, lengths);
            let input = Input::of_model(model).with_table(table).with_file(file).under(*limit);
            host_ffi::answer(*call, &input, memory) as u64
        }
    };
    outcome(number, memory)
}

/// The code of an answer or a refusal.
fn code(asked: &Asked, outcome: Outcome) -> u64 {
    match asked {
        Asked::Decide { .. } => outcome.number >> 32,
        _ => outcome.number,
    }
}

/// What an answered desk call adds to both counters; nothing for any other call.
fn charged(asked: &Asked, outcome: Outcome) -> (u64, u64) {
    match asked {
        Asked::Other { call: Call::Desk, .. } if outcome.number >= 100 => (1, outcome.value),
        _ => (0, 0),
    }
}

/// The process's resident memory in kilobytes. Allocates nothing.
fn resident(text: &mut [u8]) -> u64 {
    let mut file = File::open("/proc/self/smaps_rollup").expect("the kernel tells the resident memory");
    let length = file.read(text).expect("the kernel tells the resident memory");
    let line = text[..length].split(|&b| b == b'\n').find(|line| line.starts_with(b"Rss:")).expect("a line Rss:");
    line.iter().filter(|b| b.is_ascii_digit()).fold(0, |number, b| 10 * number + (b - b'0') as u64)
}

/// What came of going through the pool.
struct Soaked {
    /// Calls that gave something else than at first.
    changed: u64,
    /// What the answers make of the desk's counters.
    charged: (u64, u64),
    /// The resident memory after the warm-up, in kilobytes.
    least: u64,
    most: u64,
}

/// Goes through the pool over and over.
fn soak(pool: &[Asked], first: &[Outcome], memory: &mut Lent, calls: u64) -> Soaked {
    let mut soaked = Soaked { changed: 0, charged: (0, 0), least: u64::MAX, most: 0 };
    let mut text = [0u8; 4096];
    let looks_every = (calls / LOOKS).max(1);
    for number in 0..calls {
        let which = number as usize % pool.len();
        let outcome = make(&pool[which], memory);
        soaked.changed += (outcome != first[which]) as u64;
        let (jobs, passes) = charged(&pool[which], outcome);
        soaked.charged = (soaked.charged.0 + jobs, soaked.charged.1 + passes);
        // The first tenth of the looks is the warm-up.
        if number % looks_every == looks_every - 1 && number >= calls / 10 {
            let now = resident(&mut text);
            (soaked.least, soaked.most) = (soaked.least.min(now), soaked.most.max(now));
        }
    }
    soaked
}

fn main() {
    if !host_ffi::LINKED {
        println!("built without the feature `host`: nothing under test is linked in");
        std::process::exit(3);
    }
    let arguments: Vec<u64> =
        std::env::args().skip(1).map(|a| a.parse().expect("arguments are numbers: calls, seed")).collect();
    let calls = arguments.first().copied().unwrap_or(CALLS);
    let seed = arguments.get(1).copied().unwrap_or(SEED);
    let mut random = Random::new(seed);
    let mut pool = Vec::new();
    for _ in 0..MODELS {
        inputs_of_a_model(&mut random, &mut pool);
    }
    let mut memory = whole_memory();
    let first: Vec<Outcome> = pool.iter().map(|asked| make(asked, &mut memory)).collect();
    let mut codes: BTreeMap<u64, u64> = BTreeMap::new();
    let (mut jobs, mut passes) = (0, 0);
    for (asked, outcome) in pool.iter().zip(&first) {
        *codes.entry(code(asked, *outcome)).or_default() += 1;
        let more = charged(asked, *outcome);
        (jobs, passes) = (jobs + more.0, passes + more.1);
    }
    println!("seed {seed}, a pool of {} inputs; numbers of the first round {codes:?}", pool.len());

    let soaked = soak(&pool, &first, &mut memory, calls);
    let (jobs, passes) = (jobs + soaked.charged.0, passes + soaked.charged.1);
    let (changed, least, most) = (soaked.changed, soaked.least, soaked.most);
    println!("{calls} calls: {changed} gave something else than at first");
    let desk = memory.desk().expect("the desk stands");
    println!("the desk has {} jobs and {} passes; its answers make {jobs} and {passes}", desk.jobs, desk.passes);
    println!("resident memory after the warm-up: {least} kB at least, {most} kB at most");
    if changed > 0 || least != most || (desk.jobs as u64, desk.passes as u64) != (jobs, passes) {
        println!("FAILED");
        std::process::exit(1);
    }
}
