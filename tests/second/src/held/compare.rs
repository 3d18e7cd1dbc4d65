//! Compares another implementation of the C calls with this one, on fixed cases (module `fixed`),
//! random models and damaged inputs. decide and check are compared here, the others in module
//! `lending`.

use std::fmt;

use crate::c_calls::exports::Call;
use crate::c_calls::slices::{Input, Lent};
use crate::held::coverage::{note, Counts};
use crate::held::simulate::travel;
use crate::inputs::damage::{
    damage_bytes, damage_faces, damaged_cuts, damaged_head, damaged_ranges, damaged_starts, damaged_table_file,
    edited_model_file, RANGE_DAMAGE, START_DAMAGE,
};
use crate::inputs::draft::Draft;
use crate::inputs::generate::{
    close, crossing_model, extreme_model, helped_model, long_model, pass_budget, random_limit, random_model,
    random_table, stepwise_model,
};
use crate::inputs::pumps::pump_model;
use crate::inputs::random::Random;
use crate::inputs::ranges::ranged_model;
use crate::inputs::starts::{any_crosses, table_of_whole_boxes, touched_by_whole_boxes};
use crate::reference::analysis::{run_quick, Answer};
use crate::reference::desk::Desk;
use crate::reference::files::{field, file_of_words, model_file, parse_table, table_file};
use crate::reference::host;
use crate::reference::model::Plant;

/// Room for the longest table file.
pub const MOST_ROOM: usize = 7 + 64 * 24 * 63;

/// Bytes on both sides of a lent buffer that nobody may touch, unless the comparison is tight.
const MARGIN: usize = 32;

/// Random runs on each model answered safe or unknown.
const RUNS: u64 = 2;

/// One model in so many has its levels and rates at both ends of what is allowed.
const EXTREME_ONE_IN: u64 = 20;
/// One model in so many is made to be safe by its cuts.
const HELPED_ONE_IN: u64 = 10;
/// One model in so many is made to be safe by what its walls cut off its start boxes.
const CROSSING_ONE_IN: u64 = 10;
/// One model in so many is a pump plant, made to be safe by the cut of its delays.
const PUMP_ONE_IN: u64 = 8;
/// One model in so many is made so that its answer hangs on its reset ranges.
const RANGED_ONE_IN: u64 = 5;
/// One model in so many is made to take as many passes as its ceiling.
const STEPWISE_ONE_IN: u64 = 50;
/// One model in so many takes thousands of passes; none where the comparison is tight.
const LONG_ONE_IN: u64 = 150;

/// A list of desk calls after one model in so many.
const DESK_LIST_ONE_IN: u64 = 6;

/// Sets the random numbers of further cuts apart from the others.
const FURTHER_SEED: u64 = 0x12;

/// The calls that are compared with this package's own.
#[derive(Clone, Copy)]
pub struct Tested {
    pub decide: fn(&[u8], &mut [u8], u32) -> u64,
    pub check: fn(&[u8], &[u8]) -> u64,
    pub answer: fn(Call, &Input, &mut Lent) -> u32,
}

/// The first difference, with its whole input.
pub struct Difference {
    pub text: String,
}

impl fmt::Debug for Difference {
    fn fmt(&self, f: &mut fmt::Formatter) -> fmt::Result {
        f.write_str(&self.text)
    }
}

pub struct Comparison {
    pub(crate) tested: Tested,
    pub(crate) random: Random,
    /// Those of the cases of further cuts.
    pub(crate) further: Random,
    pub counts: Counts,
    /// A desk that stands through the whole comparison, with what its answers make of it.
    pub(crate) desk: Desk,
    pub(crate) answered: u64,
    pub(crate) passes: u64,
    /// The last models' words, for lists of desk calls.
    pub(crate) recent: Vec<Vec<i32>>,
    /// Print every input before the tested call, for a program that stops within a call.
    pub trace: bool,
    /// Lend buffers that end where their heap block ends, for a run under a memory checker.
    pub tight: bool,
}

pub(crate) fn hex(bytes: &[u8]) -> String {
    bytes.iter().map(|b| format!("{b:02x}")).collect()
}

/// The table file at the beginning of the buffer of an answered decide call.
pub fn written_table<'a>(plant: &Plant, buffer: &'a [u8]) -> &'a [u8] {
    let count = i32::from_be_bytes([buffer[3], buffer[4], buffer[5], buffer[6]]) as usize;
    &buffer[..7 + count * (3 + 4 * plant.field_words())]
}

/// The same model without its cuts is answered unknown, within the passes that one may ask for.
fn unknown_without_cuts(plant: &Plant) -> bool {
    if !plant.any_cut() {
        return false;
    }
    let mut words = plant.words().to_vec();
    let from = plant.sizes.cut_at(0);
    words[from..].chunks_exact_mut(2).for_each(|cut| cut.copy_from_slice(&[-1, 0]));
    let whole = Plant::from_words(&words).expect("a model passes its questions without its cuts too");
    let (mut table, mut work) = (vec![0; whole.table_words()], vec![0; whole.table_words()]);
    run_quick(&whole, pass_budget(&whole), &mut table, &mut work).0 == Answer::Unknown
}

/// A random model, of any of the ways in which they are made, but for the long ones.
fn any_model(random: &mut Random) -> Draft {
    let ways: [(u64, fn(&mut Random) -> Draft); 6] = [
        (EXTREME_ONE_IN, extreme_model),
        (HELPED_ONE_IN, helped_model),
        (CROSSING_ONE_IN, crossing_model),
        (PUMP_ONE_IN, pump_model),
        (RANGED_ONE_IN, ranged_model),
        (STEPWISE_ONE_IN, stepwise_model),
    ];
    let chosen = ways.into_iter().find(|(one_in, _)| random.chance(1, *one_in));
    chosen.map_or(random_model as fn(&mut Random) -> Draft, |(_, make)| make)(random)
}

/// Bytes at some offset in a heap block that ends with them, to vary their address.
struct Placed {
    block: Box<[u8]>,
    offset: usize,
}

impl Placed {
    fn bytes(&self) -> &[u8] {
        &self.block[self.offset..]
    }
}

impl Comparison {
    pub fn new(tested: Tested, seed: u64) -> Comparison {
        Comparison {
            tested,
            random: Random::new(seed),
            further: Random::new(seed ^ FURTHER_SEED),
            counts: Counts::default(),
            desk: Desk::default(),
            answered: 0,
            passes: 0,
            recent: Vec::new(),
            trace: false,
            tight: false,
        }
    }

    fn placed(&mut self, bytes: &[u8]) -> Placed {
        let offset = self.random.below(8);
        let mut block = vec![0x5A; offset];
        block.extend(bytes);
        Placed { block: block.into_boxed_slice(), offset }
    }

    /// Compares one decide call: the number, the buffer, the bytes around it, the model.
    /// Gives the number and the tested call's buffer.
    pub fn decide(
        &mut self,
        label: &str,
        model: &[u8],
        length: usize,
        limit: u32,
    ) -> Result<(u64, Vec<u8>), Difference> {
        let lent = self.placed(model);
        let margin = if self.tight { 0 } else { MARGIN };
        let before: Vec<u8> = (0..length + 2 * margin).map(|_| self.random.next() as u8).collect();
        let inner = margin..margin + length;
        let mut ours = before[inner.clone()].to_vec();
        let our_number = host::decide(model, &mut ours, limit);
        if self.trace {
            eprintln!("decide, {label}: limit {limit}, buffer of {length} bytes, model {}", hex(model));
        }
        let mut theirs = before.clone().into_boxed_slice();
        let their_number = (self.tested.decide)(lent.bytes(), &mut theirs[inner.clone()], limit);
        let problem = if their_number != our_number {
            Some("the numbers differ".to_string())
        } else if let Some(place) = (0..length).find(|&i| theirs[margin + i] != ours[i]) {
            Some(format!("the buffers differ from byte {place} on"))
        } else if theirs[..margin] != before[..margin] || theirs[margin + length..] != before[margin + length..] {
            Some("bytes around the buffer were changed".to_string())
        } else if lent.bytes() != model {
            Some("the model's bytes were changed".to_string())
        } else {
            None
        };
        let theirs = theirs[inner.clone()].to_vec();
        if let Some(problem) = problem {
            return Err(Difference {
                text: format!(
                    "decide, {label}: {problem}\nlimit {limit}, buffer of {length} bytes\n\
                     here   {} × 2^32 + {}\nthere  {} × 2^32 + {}\nmodel  {}\nbefore {}\nhere   {}\nthere  {}",
                    our_number >> 32,
                    our_number as u32,
                    their_number >> 32,
                    their_number as u32,
                    hex(model),
                    hex(&before[inner]),
                    hex(&ours),
                    hex(&theirs),
                ),
            });
        }
        *self.counts.decide.entry((our_number >> 32) as u32).or_default() += 1;
        self.counts.most_passes = self.counts.most_passes.max(our_number as u32);
        self.counts.extreme("decide of more than 1,500 passes", our_number as u32 > 1_500);
        Ok((our_number, theirs))
    }

    /// Compares one check call.
    pub fn check(&mut self, label: &str, model: &[u8], table: &[u8]) -> Result<u64, Difference> {
        let (lent_model, lent_table) = (self.placed(model), self.placed(table));
        let ours = host::check(model, table);
        if self.trace {
            eprintln!("check, {label}: model {}, table {}", hex(model), hex(table));
        }
        let theirs = (self.tested.check)(lent_model.bytes(), lent_table.bytes());
        let problem = if ours != theirs {
            Some("the numbers differ")
        } else if lent_model.bytes() != model {
            Some("the model's bytes were changed")
        } else if lent_table.bytes() != table {
            Some("the table's bytes were changed")
        } else {
            None
        };
        if let Some(problem) = problem {
            return Err(Difference {
                text: format!(
                    "check, {label}: {problem}\nhere {ours}, there {theirs}\nmodel {}\ntable {}",
                    hex(model),
                    hex(table)
                ),
            });
        }
        *self.counts.check.entry(ours as u32).or_default() += 1;
        Ok(ours)
    }

    /// One random model: decide, what the answer says of tables and runs, check of several
    /// tables, every other call, a list of desk calls, then `damaged` damaged inputs of decide and
    /// check and as many of the other calls.
    pub fn random_case(&mut self, damaged: u64) -> Result<(), Difference> {
        let words = any_model(&mut self.random).words();
        let plant = Plant::from_words(&words).expect("a random model passes its questions");
        let limit = random_limit(&mut self.random, &plant);
        self.model_case(&plant, limit, damaged)?;
        self.keep_model(words);
        if self.random.chance(1, DESK_LIST_ONE_IN) {
            self.desk_list()?;
        }
        if !self.tight && self.random.chance(1, LONG_ONE_IN) {
            let words = long_model(&mut self.random).words();
            let plant = Plant::from_words(&words).expect("a long model passes its questions");
            let limit = self.random.pick(&[u32::MAX, 100_000, 1_600]);
            self.model_case(&plant, limit, 0)?;
        }
        Ok(())
    }

    fn model_case(&mut self, plant: &Plant, limit: u32, damaged: u64) -> Result<(), Difference> {
        let model = model_file(plant.words());
        let room = plant.table_file_room();
        self.counts.note_model(plant, limit);
        let length = match self.random.below(10) {
            0 => self.random.below(room),
            1 => room - 1,
            2..=4 => room + self.random.below(40),
            _ => room,
        };
        let (number, buffer) = self.decide("a random model", &model, length, limit)?;
        let code = number >> 32;
        let mut answers_table = vec![0; plant.table_words()];
        if code >= 100 {
            answers_table = self.answer_case(plant, &model, code, written_table(plant, &buffer))?;
        }

        let [rest, other] = self.two_tables(plant);
        for (label, table) in [("the table at rest", &rest), ("a random table", &other)] {
            let checked = self.check(label, &model, &table_file(plant, table))?;
            self.hold_unknown(code, checked)?;
            self.hold_accepted(plant, table, checked == 100)?;
        }
        self.calls_case(plant, limit, &rest, &other)?;
        if any_crosses(plant) {
            self.trimmed_case(plant, limit, [&rest, &other])?;
        }
        self.changes_case(plant, limit)?;
        self.edition_case(plant, limit, [&rest, &other])?;
        self.ranges_case(plant, code, [&answers_table, &rest, &other])?;
        self.narrower_case(plant, limit, code, [&rest, &other])?;
        self.finer_case(plant)?;
        for _ in 0..damaged {
            self.damaged_case(plant, &model, &rest, &other)?;
            self.damaged_call(plant, &rest, &other)?;
        }
        Ok(())
    }

    /// The table at rest, or as far as the passes lead that one may ask for; and a random one, half of the time with
    /// what passes add to it.
    pub(crate) fn two_tables(&mut self, plant: &Plant) -> [Vec<i32>; 2] {
        let mut rest = vec![0; plant.table_words()];
        close(plant, &mut rest, pass_budget(plant));
        let mut other = random_table(&mut self.random, plant);
        if self.random.chance(1, 2) {
            close(plant, &mut other, pass_budget(plant).min(50));
        }
        [rest, other]
    }

    /// What an answer says: the table of a safe one is accepted, no run meets a forbidden box,
    /// and a part of the table reaches each configuration; of an unknown one no table is
    /// accepted. All of it is asked of the tested call's own bytes. Gives their table.
    fn answer_case(&mut self, plant: &Plant, model: &[u8], code: u64, file: &[u8]) -> Result<Vec<i32>, Difference> {
        let checked = self.check("the answer's table", model, file)?;
        self.hold_unknown(code, checked)?;
        let table = parse_table(plant, file).expect("a table file that equals this package's own reads");
        match code {
            100 => {
                let travelled = travel(plant, &table, &mut self.random, RUNS);
                self.counts.safe_runs.add(&travelled);
                self.counts.accepted += 1;
                self.counts.extreme("safe by its cuts, unknown without them", unknown_without_cuts(plant));
                self.note_whole_boxes(plant, &table);
                self.hold_accepted(plant, &table, checked == 100)?;
                if checked != 100 || travelled.forbidden > 0 || travelled.unreached > 0 {
                    return Err(Difference {
                        text: format!("safe, but check gives {checked} and {travelled:?}\nmodel {}", hex(model)),
                    });
                }
            }
            101 => {
                let travelled = travel(plant, &table, &mut self.random, RUNS);
                self.counts.unknown_runs.add(&travelled);
            }
            _ => {}
        }
        Ok(table)
    }

    /// Counts what a safe model, with its answer's table, would be if start boxes were taken whole.
    fn note_whole_boxes(&mut self, plant: &Plant, table: &[i32]) {
        if !any_crosses(plant) {
            return;
        }
        let no_part = (0..plant.sizes.locations).all(|l| plant.location(l).start_part().is_none());
        self.counts.extreme("safe 0 with start boxes behind walls alone", no_part);
        let (whole, at_rest) = table_of_whole_boxes(plant, pass_budget(plant));
        let touched = touched_by_whole_boxes(plant, &whole);
        self.counts.extreme("safe by its start parts, unknown with whole start boxes", touched);
        self.counts.extreme("another table with whole start boxes", at_rest && whole != table);
    }

    /// No table is accepted for a model that is answered unknown.
    fn hold_unknown(&mut self, code: u64, checked: u64) -> Result<(), Difference> {
        if code != 101 {
            return Ok(());
        }
        if checked == 100 {
            return Err(Difference { text: "a table is accepted for a model answered unknown".to_string() });
        }
        self.counts.refused += 1;
        Ok(())
    }

    /// One damaged input, built on a model and two of its tables.
    fn damaged_case(&mut self, plant: &Plant, model: &[u8], rest: &[i32], other: &[i32]) -> Result<(), Difference> {
        self.counts.damaged += 1;
        let table = if self.random.chance(2, 3) { rest } else { other };
        if self.random.chance(3, 8) {
            let file = self.damaged_table(plant, table);
            self.check("a damaged table", model, &file)?;
            return Ok(());
        }
        let damaged = self.damaged_model(plant, model);
        let random = &mut self.random;
        if random.chance(1, 3) {
            self.check("a damaged model", &damaged, &table_file(plant, table))?;
        } else {
            let length = match random.below(8) {
                0 => random.below(200),
                1 => MOST_ROOM,
                _ => plant.table_file_room(),
            };
            let limit = random.below(pass_budget(plant).min(30) as usize) as u32;
            self.decide("a damaged model", &damaged, length, limit)?;
        }
        Ok(())
    }

    fn note_damage(&mut self, what: &str, kind: &str) {
        note(&mut self.counts.damage, format!("{what}: {kind}"));
    }

    pub(crate) fn damaged_table(&mut self, plant: &Plant, table: &[i32]) -> Vec<u8> {
        if self.random.chance(2, 3) {
            let (file, kind) = damaged_table_file(&mut self.random, plant, table);
            self.note_damage("table", kind);
            return file;
        }
        // One or two changes to the faces.
        let mut damaged = table.to_vec();
        for _ in 0..1 + self.random.below(2) {
            let kind = damage_faces(&mut self.random, plant, &mut damaged);
            self.note_damage("table", kind);
        }
        table_file(plant, &damaged)
    }

    pub(crate) fn damaged_model(&mut self, plant: &Plant, model: &[u8]) -> Vec<u8> {
        match self.random.below(20) {
            0 | 1 => {
                let (words, kind) = damaged_starts(&mut self.random, plant);
                self.note_damage("model", START_DAMAGE[kind].0);
                file_of_words(&plant.sizes, &words)
            }
            2 | 3 => {
                let (words, kind) = damaged_ranges(&mut self.random, plant);
                self.note_damage("model", RANGE_DAMAGE[kind].0);
                file_of_words(&plant.sizes, &words)
            }
            4 => {
                let (bytes, kind) = damaged_head(&mut self.random, plant);
                self.note_damage("model", kind);
                bytes
            }
            _ => self.otherwise_damaged_model(plant, model),
        }
    }

    /// A model file with a change that is none of `START_DAMAGE`, `RANGE_DAMAGE` and `HEAD_DAMAGE`.
    fn otherwise_damaged_model(&mut self, plant: &Plant, model: &[u8]) -> Vec<u8> {
        let random = &mut self.random;
        match random.below(26) {
            20.. => {
                let (bytes, kind) = damaged_cuts(random, plant);
                self.note_damage("model", kind);
                bytes
            }
            0..=11 => {
                let bytes = edited_model_file(random, plant);
                self.note_damage("model", "words at the edge of a question");
                bytes
            }
            12 => {
                let mut bytes = edited_model_file(random, plant);
                damage_bytes(random, &mut bytes);
                self.note_damage("model", "such words, then bytes");
                bytes
            }
            13 => {
                let bytes = (0..random.below(40)).map(|_| random.next() as u8).collect();
                self.note_damage("model", "random bytes");
                bytes
            }
            14 => {
                let bytes = field(random.pick(&[1, 1, 1, 2, 9]), &[1, 1, 0, random.range(-1, 65) as i32]);
                self.note_damage("model", "a head and nothing else");
                bytes
            }
            _ => {
                let mut bytes = model.to_vec();
                for _ in 0..1 + self.random.below(2) {
                    let kind = damage_bytes(&mut self.random, &mut bytes);
                    self.note_damage("model", kind);
                }
                bytes
            }
        }
    }

    /// Everything: fixed cases, then random models with their share of damaged inputs.
    pub fn all(&mut self, models: u64, damaged: u64) -> Result<(), Difference> {
        self.fixed_cases()?;
        self.random_cases(models, damaged)
    }

    pub fn random_cases(&mut self, models: u64, damaged: u64) -> Result<(), Difference> {
        for number in 0..models {
            let share = damaged * (number + 1) / models - damaged * number / models;
            self.random_case(share)?;
        }
        Ok(())
    }
}
