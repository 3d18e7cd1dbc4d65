//! The two editions, and other reset ranges, in the tested calls (document 02, T-10).
//!
//! A model without a range is answered alike in both editions; one with a range is refused by 16 in edition 1. A
//! table that is accepted for a model is accepted with what is narrower in each range: fewer levels are set.

use crate::c_calls::exports::Call;
use crate::c_calls::slices::{Input, Lengths, Slice};
use crate::held::compare::{hex, Comparison, Difference};
use crate::inputs::generate::pass_budget;
use crate::inputs::ranges::{
    any_range, highs_alone, in_other_edition, inside_alone, lows_alone, one_wider, with_ranges,
};
use crate::reference::analysis::{run_quick, Answer};
use crate::reference::checker::ask_table;
use crate::reference::desk::Desk;
use crate::reference::files::{file_of_words, model_file, table_file};
use crate::reference::model::Plant;

/// One model in so many is compared with itself in the other edition, if it has no range.
const ALIKE_ONE_IN: u64 = 3;

/// What the analysis answers with other ranges within the passes that one may ask for, and its table.
fn answered_with(plant: &Plant, change: fn([i32; 2]) -> [i32; 2]) -> (Answer, Vec<i32>) {
    let words = with_ranges(plant, change);
    let other = Plant::from_words(&words).expect("a model passes its questions with other ranges too");
    let (mut table, mut work) = (vec![0; other.table_words()], vec![0; other.table_words()]);
    let (answer, _) = run_quick(&other, pass_budget(&other), &mut table, &mut work);
    (answer, table)
}

impl Comparison {
    /// A model in the other edition: answered alike, or refused by 16 by every call.
    pub(crate) fn edition_case(&mut self, plant: &Plant, limit: u32, tables: [&[i32]; 2]) -> Result<(), Difference> {
        let words = in_other_edition(plant);
        if any_range(plant) {
            self.counts.refused_editions += 1;
            return self.refused_in_edition_1(plant, &words, tables[0]);
        }
        if !self.random.chance(1, ALIKE_ONE_IN) {
            return Ok(());
        }
        self.counts.both_editions += 1;
        let other = Plant::from_words(&words).expect("a model without a range passes in both editions");
        self.answered_alike("the other edition", [plant, &other], limit, tables)
    }

    fn refused_in_edition_1(&mut self, plant: &Plant, words: &[i32], table: &[i32]) -> Result<(), Difference> {
        let label = "a range in edition 1";
        let model = file_of_words(&plant.sizes, words);
        let (decided, _) = self.decide(label, &model, plant.table_file_room(), 1)?;
        let mut numbers = vec![decided >> 32, self.check(label, &model, &table_file(plant, table))?];
        let table_words = plant.table_words();
        for call in Call::ALL {
            let length = if call.takes(Slice::Work) { table_words } else { words.len() };
            let lengths = Lengths::of_table(table_words).with(Slice::Words, length);
            let lengths = lengths.with(Slice::FileRoom, plant.table_file_room());
            let input = Input::of_model(words).with_table(table).with_file(&model).under(1);
            numbers.push(self.call(label, call, &input, &lengths, Desk::default())?.number as u64);
        }
        if numbers.iter().all(|&number| number == 16) {
            return Ok(());
        }
        Err(Difference { text: format!("{label}: not 16 but {numbers:?}\nmodel {}", hex(&model)) })
    }

    /// A model with a range. Its tables are given to both checks with narrower ranges: what was accepted must be. The
    /// tables with the lows and with the highs of its ranges alone are given to both checks as its own. Counts what
    /// the ranges of an answered model make of it.
    pub(crate) fn ranges_case(&mut self, plant: &Plant, code: u64, tables: [&[i32]; 3]) -> Result<(), Difference> {
        if !any_range(plant) {
            return Ok(());
        }
        let [lows, highs] = [lows_alone, highs_alone].map(|change| answered_with(plant, change));
        self.note_ranges(plant, code, tables[0], [&lows, &highs]);
        let change = self.random.pick(&[lows_alone, highs_alone, inside_alone]);
        let words = with_ranges(plant, change);
        let narrower = Plant::from_words(&words).expect("a model passes its questions with narrower ranges too");
        for table in tables.into_iter().filter(|table| ask_table(plant, table).is_ok()) {
            self.counts.narrowed += 1;
            if self.both_checks("a table of wider ranges", &narrower, table)? != [100, 100] {
                let (model, table) = (hex(&model_file(plant.words())), hex(&table_file(plant, table)));
                let text = format!("an accepted table is refused with narrower ranges\nmodel {model}\ntable {table}");
                return Err(Difference { text });
            }
        }
        for (kind, (answer, table)) in [("lows", lows), ("highs", highs)] {
            let checked = self.both_checks("a table of narrower ranges", plant, &table)?;
            let kind = format!("a safe answer's table of the {kind} of ranges alone refused by 33");
            self.counts.extreme(&kind, answer == Answer::Safe && checked == [33, 33]);
        }
        Ok(())
    }

    /// qii_check and check on a model and a table.
    fn both_checks(&mut self, label: &str, plant: &Plant, table: &[i32]) -> Result<[u64; 2], Difference> {
        let input = Input::of_model(plant.words()).with_table(table);
        let by_words = self.call(label, Call::Check, &input, &Lengths::default(), Desk::default())?.number as u64;
        let by_file = self.check(label, &model_file(plant.words()), &table_file(plant, table))?;
        Ok([by_words, by_file])
    }

    fn note_ranges(&mut self, plant: &Plant, code: u64, table: &[i32], [lows, highs]: [&(Answer, Vec<i32>); 2]) {
        let (by_lows, by_highs) = (lows.0 == Answer::Safe, highs.0 == Answer::Safe);
        if code == 101 {
            self.counts.extreme("unknown, and safe with the lows of its ranges alone", by_lows);
            self.counts.extreme("unknown, and safe with the highs of its ranges alone", by_highs);
            self.counts.extreme("unknown, and safe with the lows alone and with the highs alone", by_lows && by_highs);
        }
        if code == 100 {
            let wider = answered_with(plant, one_wider).0 == Answer::Unknown;
            self.counts.extreme("safe, and unknown with its ranges one wider", wider);
            self.counts.extreme("another table with the lows of its ranges alone", lows.1 != table);
            self.counts.extreme("another table with the highs of its ranges alone", highs.1 != table);
        }
    }
}
