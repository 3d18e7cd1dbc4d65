//! The C calls beside decide and check, as this package answers them: a number, a value or a quote,
//! and all memory that was lent.
//!
//! Every call is one function of what it reads and what it may write, so that all of them are
//! compared, counted and damaged in one way. A call uses the slices that its C parameters name.

use super::slices::Slice::{self, *};
use super::slices::{Input, Lent};
use crate::reference::analysis::{analysis, Answer};
use crate::reference::ceiling::ceiling;
use crate::reference::checker::checker;
use crate::reference::desk::desk_call;
use crate::reference::files::{read_model, read_table, write_model, write_table};
use crate::reference::quote::quote;
use crate::reference::Refusal;

#[derive(Clone, Copy, Debug, PartialEq, Eq, PartialOrd, Ord)]
pub enum Call {
    ReadModel,
    Ceiling,
    Check,
    Analyse,
    ReadTable,
    WriteTable,
    Desk,
    Quote,
    WriteModel,
}

/// A call: its name in C, the slices that it takes, and every number that it can give beside those of the model's
/// questions 2 to 5, 11 to 19 and 46. 43 is asked of words alone: a file's first tag gives the edition.
type About = (Call, &'static str, &'static [Slice], &'static [u32]);

/// All of them.
const ABOUT: [About; 9] = [
    (Call::ReadModel, "qii_read_model", &[File, Words, Value], &[1, 6, 7, 8, 100]),
    (Call::Ceiling, "qii_ceiling", &[Model, Value], &[43, 100]),
    (Call::Check, "qii_check", &[Model, Table], &[43, 20, 32, 33, 34, 100]),
    (Call::Analyse, "qii_analyse", &[Model, Words, Work, Value], &[43, 20, 21, 100, 101, 102]),
    (Call::ReadTable, "qii_read_table", &[Model, File, Words, Value], &[43, 20, 32, 35, 36, 37, 38, 100]),
    (Call::WriteTable, "qii_write_table", &[Model, Table, FileRoom, Value], &[43, 20, 32, 39, 100]),
    (Call::Desk, "qii_desk", &[Jobs, Passes, Model, Words, Work, Value], &[43, 20, 21, 22, 100, 101, 102]),
    (Call::Quote, "qii_quote", &[Model, Quote], &[43, 100]),
    (Call::WriteModel, "qii_write_model", &[Model, FileRoom, Value], &[43, 40, 100]),
];

impl Call {
    pub const ALL: [Call; ABOUT.len()] = {
        let mut all = [Call::ReadModel; ABOUT.len()];
        let mut i = 0;
        while i < all.len() {
            all[i] = ABOUT[i].0;
            i += 1;
        }
        all
    };

    fn about(self) -> &'static About {
        ABOUT.iter().find(|about| about.0 == self).expect("every call is listed")
    }

    /// Those that take model words.
    pub fn on_words() -> impl Iterator<Item = Call> {
        Call::ALL.into_iter().filter(|call| call.takes(Model))
    }

    /// Its name in C.
    pub fn name(self) -> &'static str {
        self.about().1
    }

    /// Every number that it can give.
    pub fn numbers(self) -> Vec<u32> {
        (2..=5).chain(11..=19).chain([46]).chain(self.about().3.iter().copied()).collect()
    }

    /// The number that one on words gives of a model that passes its questions, with nothing else handed over.
    pub fn of_a_model_alone(self) -> u32 {
        match self {
            Call::Ceiling | Call::Quote => 100,
            Call::WriteModel => 40,
            _ => 20,
        }
    }

    pub fn takes(self, slice: Slice) -> bool {
        self.about().2.contains(&slice)
    }

    /// The slices that it takes and whose length is handed over, in the order of its parameters.
    pub fn sized(self) -> impl Iterator<Item = Slice> {
        self.about().2.iter().copied().filter(|slice| slice.is_sized())
    }
}

/// Number and value of a reply.
type Reply = (u32, u64);

fn counted(outcome: Result<usize, Refusal>) -> Reply {
    outcome.map_or_else(|number| (number, 0), |count| (100, count as u64))
}

fn answered(outcome: Result<(Answer, u32), Refusal>) -> Reply {
    outcome.map_or_else(|number| (number, 0), |(answer, k)| (answer.code(), k as u64))
}

/// The call's number. The value or the quote is written in every case, 0 on a refusal.
pub fn answer(call: Call, input: &Input, lent: &mut Lent) -> u32 {
    let model = input.model();
    let (number, value) = match call {
        Call::ReadModel => counted(read_model(input.file(), lent.words(Words))),
        Call::Ceiling => ceiling(model).map_or_else(|number| (number, 0), |passes| (100, passes)),
        Call::Check => return checker(model, input.table()).err().unwrap_or(100),
        Call::Analyse => {
            let [table, work] = lent.several([Words, Work]);
            answered(analysis(model, input.limit, table, work))
        }
        Call::ReadTable => counted(read_table(model, input.file(), lent.words(Words))),
        Call::WriteTable => counted(write_table(model, input.table(), lent.bytes(FileRoom))),
        Call::WriteModel => counted(write_model(model, lent.bytes(FileRoom))),
        Call::Desk => {
            let mut desk = lent.desk().expect("the desk is lent its counters");
            let [table, work] = lent.several([Words, Work]);
            let outcome = desk_call(&mut desk, model, input.limit, table, work);
            lent.put_desk(&desk);
            answered(outcome)
        }
        Call::Quote => {
            let outcome = quote(model);
            lent.put_quote(&outcome.unwrap_or_default());
            return outcome.err().unwrap_or(100);
        }
    };
    *lent.value() = value;
    number
}
