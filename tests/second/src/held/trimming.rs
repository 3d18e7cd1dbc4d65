//! A model and the same model with its start boxes trimmed to their start parts (document 02, T-02) are to be
//! answered alike by the tested calls: the same numbers, the same table bytes, the same words.

use crate::c_calls::exports::Call;
use crate::c_calls::slices::{Input, Lengths};
use crate::held::compare::{hex, written_table, Comparison, Difference};
use crate::inputs::starts::trimmed;
use crate::reference::desk::Desk;
use crate::reference::files::{model_file, table_file};
use crate::reference::model::Plant;
use crate::reference::quote::Quote;

/// What a call gave.
#[derive(Default, PartialEq)]
pub(crate) struct Gave {
    call: &'static str,
    number: u64,
    value: u64,
    quote: Option<Quote>,
    desk: Desk,
    words: Vec<i32>,
    file: Vec<u8>,
}

impl Comparison {
    /// All calls on both models, the checks on the answer's table and on these tables.
    pub(crate) fn trimmed_case(&mut self, plant: &Plant, limit: u32, tables: [&[i32]; 2]) -> Result<(), Difference> {
        self.counts.trimmed += 1;
        let words = trimmed(plant);
        let other = Plant::from_words(&words).expect("start parts are start boxes that pass their question");
        self.answered_alike("start boxes trimmed", [plant, &other], limit, tables)
    }

    /// All calls on two models, which must give the same.
    pub(crate) fn answered_alike(
        &mut self,
        label: &str,
        [plant, other]: [&Plant; 2],
        limit: u32,
        tables: [&[i32]; 2],
    ) -> Result<(), Difference> {
        let as_it_is = self.all_calls("a model as it is", plant, limit, tables)?;
        let changed = self.all_calls(label, other, limit, tables)?;
        let Some((gave, _)) = as_it_is.iter().zip(&changed).find(|(one, other)| one != other) else {
            return Ok(());
        };
        let model = hex(&model_file(plant.words()));
        Err(Difference { text: format!("{}: another outcome with {label}\nmodel {model}", gave.call) })
    }

    fn all_calls(
        &mut self,
        label: &str,
        plant: &Plant,
        limit: u32,
        tables: [&[i32]; 2],
    ) -> Result<Vec<Gave>, Difference> {
        let model = model_file(plant.words());
        let (number, buffer) = self.decide(label, &model, plant.table_file_room(), limit)?;
        let file = written_table(plant, &buffer).to_vec();
        let mut gave = vec![Gave { call: "decide", number, file: file.clone(), ..Gave::default() }];
        for table in [&file, &table_file(plant, tables[0]), &table_file(plant, tables[1])] {
            gave.push(Gave { call: "check", number: self.check(label, &model, table)?, ..Gave::default() });
        }
        let lengths = Lengths::of_table(plant.table_words());
        let [first, second] = tables;
        let calls = [Call::Ceiling, Call::Quote, Call::Analyse, Call::Desk, Call::Check].map(|call| (call, first));
        for (call, table) in calls.into_iter().chain([(Call::Check, second)]) {
            let input = Input::of_model(plant.words()).with_table(table).under(limit);
            let left = self.call(label, call, &input, &lengths, Desk::default())?;
            gave.push(Gave {
                call: call.name(),
                number: left.number as u64,
                value: left.value(),
                quote: left.after.quote(),
                desk: left.desk(),
                words: left.words().to_vec(),
                file: vec![],
            });
        }
        Ok(gave)
    }
}
