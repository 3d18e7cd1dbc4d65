//! What is promised of a quote (document 02, T-07), held of the tested calls: no analysis takes more, under whatever
//! limit; buffers of the quoted lengths are long enough, and shorter ones are not.

use std::cmp::Ordering;

use crate::c_calls::exports::Call;
use crate::c_calls::slices::{Input, Lengths, Slice};
use crate::held::compare::{hex, Comparison, Difference};
use crate::held::coverage::note;
use crate::reference::files::model_file;
use crate::reference::model::Plant;
use crate::reference::quote::{Quote, Taken};

/// What must come up among the quotes that were held to an answer, and how often under the full counts.
pub const QUOTED: [(&str, u64); 9] = [
    ("under limit 0", 1_000),
    ("under a limit of 1 or more, below the ceiling", 1_000),
    ("under the ceiling as the limit", 1_000),
    ("under a limit above the ceiling", 1_000),
    ("at least half of the passes quoted", 150),
    ("at least nine tenths of the passes quoted", 80),
    ("all passes quoted", 60),
    ("a table file as long as quoted", 100),
    ("every piece that may be present, with a cut", 100),
];

/// Buffers of exactly the quoted lengths.
pub(crate) fn quoted_lengths(quote: &Quote) -> Lengths {
    Lengths::of_table(quote.words as usize).with(Slice::FileRoom, quote.bytes as usize)
}

/// The kinds of `QUOTED` that an answer is of.
fn kinds(plant: &Plant, limit: u32, quote: &Quote, taken: &Taken) -> [bool; QUOTED.len()] {
    let by_ceiling = (limit as u64).cmp(&quote.ceiling);
    // What is always absent: the second pieces on both walls of each cut variable.
    let absent = 2 * plant.cuts() as u64;
    let field_bytes = 3 + 4 * plant.field_words() as u64;
    [
        limit == 0,
        limit > 0 && by_ceiling == Ordering::Less,
        by_ceiling == Ordering::Equal,
        by_ceiling == Ordering::Greater,
        2 * taken.passes >= quote.ceiling,
        10 * taken.passes >= 9 * quote.ceiling,
        taken.passes == quote.ceiling,
        taken.bytes == quote.bytes,
        absent > 0 && taken.bytes + absent * field_bytes == quote.bytes,
    ]
}

impl Comparison {
    /// The quote of a model that passes its questions. Its ceiling is the one that the ceiling's call gives.
    pub(crate) fn quote_of(&mut self, input: &Input) -> Result<Quote, Difference> {
        let none = Lengths::default();
        let quoted = self.program_call(Call::Quote, input, &none)?;
        let ceiling = self.program_call(Call::Ceiling, input, &none)?.value();
        let quote = quoted.quote();
        if quoted.number != 100 || quote.ceiling != ceiling {
            let text = format!("quoted {} with {quote:?}, but the ceiling is {ceiling}", quoted.number);
            return Err(Difference { text });
        }
        Ok(quote)
    }

    /// Buffers of one word or one byte less than quoted are refused, whatever else is handed over.
    pub(crate) fn short_of_the_quote(&mut self, input: &Input, model: &[u8], quote: &Quote) -> Result<(), Difference> {
        let exact = quoted_lengths(quote);
        let short_of = |slice: Slice| exact.with(slice, exact.of(slice) - 1);
        let [a_table_word, a_work_word, a_byte] = Slice::ROOM.map(short_of);
        let mut numbers = Vec::new();
        for (call, lengths, due) in [
            (Call::Analyse, a_table_word, 20),
            (Call::Analyse, a_work_word, 21),
            (Call::Desk, a_table_word, 20),
            (Call::Desk, a_work_word, 21),
            (Call::ReadTable, a_table_word, 20),
            (Call::WriteTable, a_byte, 39),
        ] {
            numbers.push((self.program_call(call, input, &lengths)?.number, due));
        }
        let (decided, _) = self.decide("short of the quote", model, a_byte.of(Slice::FileRoom), input.limit)?;
        numbers.push(((decided >> 32) as u32, 39));
        if numbers.iter().all(|(number, due)| number == due) {
            return Ok(());
        }
        Err(Difference { text: format!("{quote:?}, but short of it numbers and those due are {numbers:?}") })
    }

    /// What the calls took keeps to the quote.
    pub(crate) fn quote_case(
        &mut self,
        plant: &Plant,
        limit: u32,
        quote: &Quote,
        taken: &Taken,
    ) -> Result<(), Difference> {
        if !quote.holds(taken) {
            let model = hex(&model_file(plant.words()));
            return Err(Difference { text: format!("{quote:?}, but {taken:?} under limit {limit}\nmodel {model}") });
        }
        for ((kind, _), is) in QUOTED.iter().zip(kinds(plant, limit, quote, taken)) {
            if is {
                note(&mut self.counts.quotes, *kind);
            }
        }
        Ok(())
    }
}
