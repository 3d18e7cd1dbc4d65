//! What came up in a comparison: kinds of models, limits, damage and numbers. Every kind that
//! is listed must come up under the full counts.

use std::collections::BTreeMap;

use crate::c_calls::exports::Call;
use crate::held::changes::{Changes, STEP_KINDS};
use crate::held::dividing::REFINED;
use crate::held::lending::{DESK_CALLS, DESK_STARTS, LENGTH_KINDS};
use crate::held::pairing::{EACH_WAY, PAIRED};
use crate::held::quoting::QUOTED;
use crate::held::simulate::Travelled;
use crate::held::writing::WRITTEN;
use crate::inputs::damage::{
    BYTE_DAMAGE, CUT_DAMAGE, FACES_DAMAGE, FIELD_DAMAGE, HEAD_DAMAGE, RANGE_DAMAGE, START_DAMAGE, TABLE_DAMAGE,
};
use crate::inputs::narrowing::WAYS;
use crate::inputs::ranges::{any_range, range_kinds, RANGE_KINDS};
use crate::inputs::starts::{start_kinds, START_KINDS};
use crate::reference::ceiling;
use crate::reference::model::{
    ordered_inside, Cut, Location, Plant, Switch, LEVEL, MAX_FORBIDDEN, MAX_LOCATIONS, MAX_SWITCHES, RATE,
};

/// The numbers that each call can give: refusals, then answers.
pub const DECIDE_NUMBERS: [u32; 21] = [1, 2, 3, 4, 6, 7, 8, 11, 12, 13, 14, 15, 16, 17, 18, 19, 46, 39, 100, 101, 102];
pub const CHECK_NUMBERS: [u32; 25] =
    [1, 2, 3, 4, 6, 7, 8, 11, 12, 13, 14, 15, 16, 17, 18, 19, 46, 32, 33, 34, 35, 36, 37, 38, 100];

pub const MODEL_KINDS: [&str; 23] = [
    "a wall of zero width",
    "a guard that sticks out",
    "a reset box that sticks out",
    "a switch with a mask",
    "a switch that never lands",
    "a switch to its own location",
    "no start flag",
    "several start parts",
    "no switch",
    "no forbidden box",
    "64 locations",
    "128 switches",
    "64 forbidden boxes",
    "a level of 1,000,000",
    "a rate of 1,000",
    "a cut at the lowest value that it can have",
    "a cut at the highest value that it can have",
    "some locations cut, some not",
    "every location cut",
    "a switch from the cut variable's own wall",
    "a switch from a face in two pieces",
    "a switch onto a face in two pieces",
    "a start part on both sides of its location's cut",
];

pub const LIMIT_KINDS: [&str; 5] = ["0", "1 to 3", "4 to the ceiling", "above the ceiling", "4,294,967,295"];

/// Damage that is not one of the kinds of `generate`.
pub const OTHER_DAMAGE: [&str; 4] =
    ["words at the edge of a question", "such words, then bytes", "random bytes", "a head and nothing else"];

/// Damage to model words.
pub const WORDS_DAMAGE: [&str; 6] = [
    "ends anywhere",
    "ends at the head",
    "a bad count, and ends at the head",
    "random words",
    "edited, and words behind it",
    "words at the edge of a question",
];

/// Extremes, and how often each must come up under the full counts.
pub const EXTREMES: [(&str, u64); 25] = [
    ("rates of -1,000 and 1,000 in one location", 300),
    ("a variable from -1,000,000 to 1,000,000", 300),
    ("such rates and such a variable in one location", 300),
    ("a rate range of -1,000..1,000", 100),
    ("a face from -1,000,000 to 1,000,000", 100),
    ("a ceiling above 4,294,967,295", 20),
    ("decide of more than 1,500 passes", 50),
    ("qii_analyse of more than 1,500 passes", 50),
    ("qii_desk of more than 1,500 passes", 50),
    ("64 locations cut", 50),
    ("safe by its cuts, unknown without them", 150),
    ("safe by its start parts, unknown with whole start boxes", 500),
    ("another table with whole start boxes", 500),
    ("safe 0 with start boxes behind walls alone", 200),
    ("a face with its first piece alone", 1_000),
    ("a face with its second piece alone", 1_000),
    ("a face with both its pieces", 1_000),
    ("unknown, and safe with the lows of its ranges alone", 200),
    ("unknown, and safe with the highs of its ranges alone", 200),
    ("unknown, and safe with the lows alone and with the highs alone", 100),
    ("safe, and unknown with its ranges one wider", 200),
    ("another table with the lows of its ranges alone", 300),
    ("another table with the highs of its ranges alone", 300),
    ("a safe answer's table of the lows of ranges alone refused by 33", 300),
    ("a safe answer's table of the highs of ranges alone refused by 33", 300),
];

/// What T-06 changes, and how often each must come up under the full counts.
type Change = (&'static str, u64, fn(&Changes) -> u64);
const CHANGES: [Change; 8] = [
    ("another answer than before T-06", 300, |changes| changes.answer),
    ("unknown before T-06, and safe", 300, |changes| changes.answers.get("unknown to safe").copied().unwrap_or(0)),
    ("fewer passes than before T-06", 300, |changes| changes.fewer_passes),
    ("more passes than before T-06", 300, |changes| changes.more_passes),
    ("another table than before T-06", 1_000, |changes| changes.table),
    ("a table accepted before T-06 and still", 5_000, |changes| changes.still_accepted),
    ("such a table that is wider than the answer's", 1_000, |changes| changes.wider),
    ("a table refused by 33 before T-06 and accepted", 1_000, |changes| changes.newly_accepted),
];

/// How often each kind of start box must come up under the full counts.
const EACH_START: u64 = 300;

/// How often each kind of reset range must come up under the full counts.
const EACH_RANGE: u64 = 300;

/// How often each kind of wall step must come up under the full counts.
const EACH_STEP: u64 = 1_000;

/// Counts by kind.
pub type Tally = BTreeMap<String, u64>;

/// What was compared.
#[derive(Clone, Debug, Default)]
pub struct Counts {
    pub fixed: u64,
    pub models: u64,
    pub damaged: u64,
    /// Models by number of variables (index n), all, those with cuts and those with reset ranges.
    pub by_n: [u64; 7],
    pub cut_by_n: [u64; 7],
    pub ranged_by_n: [u64; 7],
    pub model_kinds: Tally,
    /// Models by how their start boxes lie.
    pub start_kinds: Tally,
    /// Models that were also compared with their start boxes trimmed.
    pub trimmed: u64,
    /// Models by their edition and by how their reset ranges lie.
    pub range_kinds: Tally,
    /// Models that were compared in both editions, and models with a range that edition 1 refused.
    pub both_editions: u64,
    pub refused_editions: u64,
    /// Accepted tables that were checked with narrower ranges.
    pub narrowed: u64,
    pub limits: Tally,
    pub damage: Tally,
    /// Calls by the number that decide or check gave.
    pub decide: BTreeMap<u32, u64>,
    pub check: BTreeMap<u32, u64>,
    /// Calls by call and the number that it gave, of the others.
    pub calls: BTreeMap<Call, BTreeMap<u32, u64>>,
    /// The lengths of their slices, against those that are due.
    pub lengths: Tally,
    pub damaged_calls: u64,
    /// Lists of desk calls, and what came up in them.
    pub desk_lists: u64,
    pub desks: Tally,
    pub extremes: Tally,
    /// Quotes that were held to an answer, by kind.
    pub quotes: Tally,
    /// Models that were written and read again, by kind.
    pub written: Tally,
    /// Pairs of a plant and a narrower one by kind, and by the ways in which they were made; those whose second takes
    /// too many passes to be analysed.
    pub pairs: Tally,
    pub ways: Tally,
    pub long_pairs: u64,
    /// Pairs of a plant and one with further cuts, by kind.
    pub finer: Tally,
    /// The most passes of an answer.
    pub most_passes: u32,
    /// Safe answers whose table was accepted.
    pub accepted: u64,
    /// Tables that were refused for models answered unknown.
    pub refused: u64,
    /// What the cut of delays changed.
    pub changes: Changes,
    /// Runs of models answered safe, and of models answered unknown.
    pub safe_runs: Travelled,
    pub unknown_runs: Travelled,
}

pub fn note(tally: &mut Tally, kind: impl Into<String>) {
    *tally.entry(kind.into()).or_default() += 1;
}

impl Counts {
    pub fn note_model(&mut self, plant: &Plant, limit: u32) {
        self.models += 1;
        self.by_n[plant.sizes.n] += 1;
        self.cut_by_n[plant.sizes.n] += plant.any_cut() as u64;
        for kind in model_kinds(plant) {
            note(&mut self.model_kinds, kind);
        }
        for kind in start_kinds(plant) {
            note(&mut self.start_kinds, kind);
        }
        self.ranged_by_n[plant.sizes.n] += any_range(plant) as u64;
        for kind in range_kinds(plant) {
            note(&mut self.range_kinds, kind);
        }
        self.note_extremes(plant);
        note(&mut self.limits, limit_kind(plant, limit));
    }

    /// Counts an extreme if it came up.
    pub fn extreme(&mut self, kind: &str, is: bool) {
        if is {
            note(&mut self.extremes, kind);
        }
    }

    fn note_extremes(&mut self, plant: &Plant) {
        let locations = || (0..plant.sizes.locations).map(|l| plant.location(l));
        let rates = |l: &Location| l.rates.contains(&RATE) && l.rates.contains(&-RATE);
        let levels = |l: &Location| l.invariant.chunks_exact(2).any(|r| r == [-LEVEL, LEVEL]);
        let wide_rates = |l: &Location| l.rates.chunks_exact(2).any(|r| r == [-RATE, RATE]);
        self.extreme(EXTREMES[0].0, locations().any(|l| rates(&l)));
        self.extreme(EXTREMES[1].0, locations().any(|l| levels(&l)));
        self.extreme(EXTREMES[2].0, locations().any(|l| rates(&l) && levels(&l)));
        self.extreme(EXTREMES[3].0, locations().any(|l| wide_rates(&l)));
        self.extreme("64 locations cut", plant.cuts() == MAX_LOCATIONS);
    }

    /// Counts what came up among the faces in two pieces of an answer's table.
    pub fn note_pieces(&mut self, plant: &Plant, table: &[i32]) {
        let mut seen = [false; 3];
        for l in (0..plant.sizes.locations).filter(|&l| plant.cut(l).is_some()) {
            for face in 0..plant.sizes.faces() {
                let pieces = &table[plant.face_places(l, face)];
                match (in_two_pieces(plant, l, face), pieces[0], pieces[plant.sizes.face_words()]) {
                    (true, 1, 0) => seen[0] = true,
                    (true, 0, 1) => seen[1] = true,
                    (true, 1, 1) => seen[2] = true,
                    _ => {}
                }
            }
        }
        self.extreme("a face with its first piece alone", seen[0]);
        self.extreme("a face with its second piece alone", seen[1]);
        self.extreme("a face with both its pieces", seen[2]);
    }

    /// Extremes, kinds of start boxes, of reset ranges, of wall steps, of quotes, of written models and of pairs, and
    /// changes by T-06 that did not come up as often as they must under the full counts.
    pub fn too_seldom(&self) -> Vec<String> {
        let tallied = |tally: &Tally, kind: &str| tally.get(kind).copied().unwrap_or(0);
        let extremes = EXTREMES.map(|(kind, least)| (kind, least, tallied(&self.extremes, kind)));
        let starts = START_KINDS.map(|kind| (kind, EACH_START, tallied(&self.start_kinds, kind)));
        let steps = STEP_KINDS.iter().zip(self.changes.steps).map(|(kind, count)| (*kind, EACH_STEP, count));
        let changes = CHANGES.map(|(kind, least, count)| (kind, least, count(&self.changes)));
        let ranges = RANGE_KINDS.map(|kind| (kind, EACH_RANGE, tallied(&self.range_kinds, kind)));
        let quotes = QUOTED.map(|(kind, least)| (kind, least, tallied(&self.quotes, kind)));
        let written = WRITTEN.map(|(kind, least)| (kind, least, tallied(&self.written, kind)));
        let counted = extremes.into_iter().chain(starts).chain(ranges).chain(steps).chain(changes);
        let pairs = PAIRED.map(|(kind, least)| (kind, least, tallied(&self.pairs, kind)));
        let ways = WAYS.map(|(way, _)| (way, EACH_WAY, tallied(&self.ways, way)));
        let finer = REFINED.map(|(kind, least)| (kind, least, tallied(&self.finer, kind)));
        let counted = counted.chain(quotes).chain(written).chain(pairs).chain(ways).chain(finer);
        let seldom = counted.filter(|(_, least, count)| count < least);
        seldom.map(|(kind, least, count)| format!("{kind} ({count} of {least} times)")).collect()
    }

    /// Numbers that a call can give and never gave.
    pub fn numbers_not_seen(&self) -> Vec<String> {
        let missing = |name: &str, numbers: &[u32], seen: Option<&BTreeMap<u32, u64>>| -> Vec<String> {
            let never = |n: &&u32| !seen.is_some_and(|seen| seen.contains_key(n));
            numbers.iter().filter(never).map(|n| format!("{name} {n}")).collect()
        };
        let mut all = missing("decide", &DECIDE_NUMBERS, Some(&self.decide));
        all.extend(missing("check", &CHECK_NUMBERS, Some(&self.check)));
        for call in Call::ALL {
            all.extend(missing(call.name(), &call.numbers(), self.calls.get(&call)));
        }
        all
    }

    /// Numbers that a call gave and cannot give.
    pub fn numbers_not_due(&self) -> Vec<String> {
        let beyond = |name: &str, numbers: &[u32], seen: Option<&BTreeMap<u32, u64>>| -> Vec<String> {
            let given = seen.into_iter().flat_map(|seen| seen.keys());
            given.filter(|n| !numbers.contains(n)).map(|n| format!("{name} {n}")).collect()
        };
        let mut all = beyond("decide", &DECIDE_NUMBERS, Some(&self.decide));
        all.extend(beyond("check", &CHECK_NUMBERS, Some(&self.check)));
        for call in Call::ALL {
            all.extend(beyond(call.name(), &call.numbers(), self.calls.get(&call)));
        }
        all
    }

    /// Kinds of pairs, and ways in which they are made, that never came up.
    fn pairs_not_seen(&self) -> Vec<String> {
        let kinds = PAIRED.iter().map(|(kind, _)| *kind).filter(|kind| !self.pairs.contains_key(*kind));
        let ways = WAYS.iter().map(|(way, _)| *way).filter(|way| !self.ways.contains_key(*way));
        let finer = REFINED.iter().map(|(kind, _)| *kind).filter(|kind| !self.finer.contains_key(*kind));
        let finer = finer.map(|kind| format!("further cuts: {kind}"));
        kinds.chain(ways).map(|kind| format!("a pair: {kind}")).chain(finer).collect()
    }

    /// Kinds of input that are listed and never came up.
    pub fn kinds_not_seen(&self) -> Vec<String> {
        let mut missing = Vec::new();
        let mut expect = |what: &str, seen: bool| {
            if !seen {
                missing.push(what.to_string());
            }
        };
        all_lengths().iter().for_each(|kind| expect(kind, self.lengths.contains_key(kind)));
        DESK_STARTS.iter().chain(&DESK_CALLS).for_each(|kind| expect(kind, self.desks.contains_key(*kind)));
        (1..=6).for_each(|n| expect(&format!("n {n}"), self.by_n[n] > 0));
        (1..=6).for_each(|n| expect(&format!("n {n} with a cut"), self.cut_by_n[n] > 0));
        MODEL_KINDS.iter().for_each(|kind| expect(kind, self.model_kinds.contains_key(*kind)));
        START_KINDS
            .iter()
            .for_each(|kind| expect(&format!("a start box: {kind}"), self.start_kinds.contains_key(*kind)));
        expect("a model with its start boxes trimmed", self.trimmed > 0);
        (2..=6).for_each(|n| expect(&format!("n {n} with a reset range"), self.ranged_by_n[n] > 0));
        RANGE_KINDS.iter().for_each(|kind| expect(kind, self.range_kinds.contains_key(*kind)));
        expect("a model in both editions", self.both_editions > 0);
        expect("a model with a range in edition 1", self.refused_editions > 0);
        expect("an accepted table with narrower ranges", self.narrowed > 0);
        STEP_KINDS
            .iter()
            .zip(self.changes.steps)
            .for_each(|(kind, count)| expect(&format!("delays {kind}"), count > 0));
        CHANGES.iter().for_each(|(kind, _, count)| expect(kind, count(&self.changes) > 0));
        QUOTED.iter().for_each(|(kind, _)| expect(&format!("a quote: {kind}"), self.quotes.contains_key(*kind)));
        WRITTEN.iter().for_each(|(kind, _)| expect(&format!("written: {kind}"), self.written.contains_key(*kind)));
        self.pairs_not_seen().iter().for_each(|kind| expect(kind, false));
        LIMIT_KINDS.iter().for_each(|kind| expect(&format!("limit {kind}"), self.limits.contains_key(*kind)));
        all_damage().iter().for_each(|kind| expect(kind, self.damage.contains_key(kind)));
        expect("a safe answer's table accepted", self.accepted > 0);
        expect("a table refused for an unknown model", self.refused > 0);
        expect("a switch in a run of a safe model", self.safe_runs.switches > 0);
        expect("a level inside a reset range in a run of a safe model", self.safe_runs.inside_ranges > 0);
        expect("a fraction in a reset range in a run of a safe model", self.safe_runs.fractions > 0);
        expect("a forbidden box met in a run of an unknown model", self.unknown_runs.forbidden > 0);
        missing
    }
}

/// Every kind of damage, each with what is damaged.
pub fn all_damage() -> Vec<String> {
    let model = BYTE_DAMAGE.iter().chain(&CUT_DAMAGE).chain(&HEAD_DAMAGE).chain(&OTHER_DAMAGE);
    let model = model.map(|kind| format!("model: {kind}"));
    let table = BYTE_DAMAGE.iter().chain(FACES_DAMAGE).chain(&FIELD_DAMAGE).map(|kind| format!("table: {kind}"));
    let model_words = WORDS_DAMAGE.iter().map(|kind| format!("model words: {kind}"));
    let table_words = TABLE_DAMAGE.iter().map(|kind| format!("table words: {kind}"));
    let in_both = |kind: &str| ["model", "model words"].map(|what| format!("{what}: {kind}"));
    let starts = START_DAMAGE.iter().flat_map(|(kind, _)| in_both(kind));
    let ranges = RANGE_DAMAGE.iter().flat_map(|(kind, ..)| in_both(kind));
    model.chain(table).chain(model_words).chain(table_words).chain(starts).chain(ranges).collect()
}

/// The kinds of lengths that must come up, of every slice of every call.
pub fn all_lengths() -> Vec<String> {
    let mut kinds = Vec::new();
    for call in Call::ALL {
        for slice in call.sized() {
            kinds.extend(LENGTH_KINDS[..4].iter().map(|kind| format!("{} {slice:?} {kind}", call.name())));
        }
    }
    kinds
}

/// Is a face of location l kept as two pieces?
fn in_two_pieces(plant: &Plant, l: usize, face: usize) -> bool {
    plant.cut(l).is_some_and(|cut| cut.variable != face / 2)
}

fn limit_kind(plant: &Plant, limit: u32) -> &'static str {
    match limit {
        0 => LIMIT_KINDS[0],
        1..=3 => LIMIT_KINDS[1],
        u32::MAX => LIMIT_KINDS[4],
        _ if limit as u64 > ceiling::of_plant(plant) => LIMIT_KINDS[3],
        _ => LIMIT_KINDS[2],
    }
}

/// The kinds that a model is of.
fn model_kinds(plant: &Plant) -> Vec<&'static str> {
    let sizes = plant.sizes;
    let locations = || (0..sizes.locations).map(|l| plant.location(l));
    let switches = || (0..sizes.switches).map(|s| plant.switch(s));
    let invariant = |l: usize| plant.location(l).invariant;
    let starts = locations().filter(|l| l.start_part().is_some()).count();
    let cuts = plant.cuts();
    let cut_at = |side: usize, by: i32| {
        locations().any(|l| l.cut.is_some_and(|cut| cut.value == l.invariant[2 * cut.variable + side] + by))
    };
    let starts_on_both_sides = |l: Location| {
        let both =
            |part: &[i32], cut: Cut| part[2 * cut.variable] < cut.value && cut.value < part[2 * cut.variable + 1];
        l.start_part().is_some_and(|part| l.cut.is_some_and(|cut| both(&part, cut)))
    };
    let on_own_wall = |s: &Switch| plant.cut(s.source).is_some_and(|cut| cut.variable == s.d);
    let never_lands = |s: &Switch| {
        let wall = s.guard[2 * s.d];
        s.mask >> s.d & 1 == 0 && (wall < s.reset[2 * s.d] || s.reset[2 * s.d + 1] < wall)
    };
    let is = [
        locations().any(|l| l.invariant.chunks_exact(2).any(|r| r[0] == r[1])),
        switches().any(|s| !ordered_inside(s.guard, invariant(s.source))),
        switches().any(|s| !ordered_inside(s.reset, invariant(s.target))),
        switches().any(|s| s.mask != 0),
        switches().any(|s| never_lands(&s)),
        switches().any(|s| s.source == s.target),
        !locations().any(|l| l.started),
        starts > 1,
        sizes.switches == 0,
        sizes.forbidden == 0,
        sizes.locations == MAX_LOCATIONS,
        sizes.switches == MAX_SWITCHES,
        sizes.forbidden == MAX_FORBIDDEN,
        locations().any(|l| l.invariant.iter().any(|level| level.abs() == LEVEL)),
        locations().any(|l| l.rates.iter().any(|rate| rate.abs() == RATE)),
        cut_at(0, 1),
        cut_at(1, -1),
        0 < cuts && cuts < sizes.locations,
        cuts == sizes.locations,
        switches().any(|s| on_own_wall(&s)),
        switches().any(|s| in_two_pieces(plant, s.source, 2 * s.d)),
        switches().any(|s| in_two_pieces(plant, s.target, 2 * s.d)),
        locations().any(starts_on_both_sides),
    ];
    MODEL_KINDS.into_iter().zip(is).filter(|(_, is)| *is).map(|(kind, _)| kind).collect()
}
