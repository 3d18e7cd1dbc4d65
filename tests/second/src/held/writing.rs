//! What is promised of written model files (document 02, T-01), held of the tested calls: a model's file reads as the
//! same words, a file that reads is written again with the same bytes, and a written file is decided as its words are
//! analysed.

use crate::c_calls::exports::Call;
use crate::c_calls::slices::{Input, Left, Lengths};
use crate::held::compare::{hex, written_table, Comparison, Difference};
use crate::held::coverage::note;
use crate::held::lending::of_length;
use crate::inputs::ranges::any_range;
use crate::inputs::starts::any_crosses;
use crate::reference::desk::Desk;
use crate::reference::files::model_file_bytes;
use crate::reference::model::{Edition, Plant};

/// What must come up among the models that go there and back, and how often under the full counts.
pub const WRITTEN: [(&str, u64); 13] = [
    ("edition 1", 5_000),
    ("edition 2", 5_000),
    ("no cut", 5_000),
    ("two cuts or more", 3_000),
    ("the first location cut, another not", 1_000),
    ("the first location not cut, another cut", 1_000),
    ("every location cut", 3_000),
    ("a reset range", 3_000),
    ("a start box that crosses the wall", 5_000),
    ("a cut, a reset range and a start box that crosses the wall", 500),
    ("words behind the model", 5_000),
    ("a damaged file that reads", 1_000),
    ("damaged words that pass", 1_000),
];

/// The kinds of `WRITTEN` that a list is of which begins with a model's words, but for the damaged ones.
fn kinds(plant: &Plant, list: &[i32]) -> [bool; 11] {
    let (cuts, first_cut) = (plant.cuts(), plant.cut(0).is_some());
    let some_cut = 0 < cuts && cuts < plant.sizes.locations;
    let (ranged, crosses) = (any_range(plant), any_crosses(plant));
    [
        plant.edition == Edition::One,
        plant.edition == Edition::Two,
        cuts == 0,
        cuts > 1,
        some_cut && first_cut,
        some_cut && !first_cut,
        cuts == plant.sizes.locations,
        ranged,
        crosses,
        cuts > 0 && ranged && crosses,
        plant.words().len() < list.len(),
    ]
}

/// Calls that are made in some way.
pub trait Calls {
    fn make(&mut self, call: Call, input: &Input, lengths: &Lengths) -> Result<Left, Difference>;
}

fn broken(what: &str, words: &[i32], file: &[u8]) -> Difference {
    Difference { text: format!("{what}\nmodel {words:?}\nfile {}", hex(file)) }
}

/// A list that begins with a model's words is refused by 40 without a buffer and in one that is a byte too short, and
/// nothing is written.
fn refused_by_40(calls: &mut impl Calls, list: &[i32], bytes: usize) -> Result<(), Difference> {
    for length in [0, bytes - 1] {
        let left = calls.make(Call::WriteModel, &Input::of_model(list), &Lengths::of_file(length))?;
        if (left.number, left.value()) != (40, 0) || left.file() != left.old_file() {
            return Err(broken("not refused by 40, or something is written", list, left.file()));
        }
    }
    Ok(())
}

/// These words are written as a file of so many bytes, in a buffer of that length and in one that is longer, of which
/// the rest stands. Gives the file.
fn written(calls: &mut impl Calls, list: &[i32], bytes: usize, more: usize) -> Result<Vec<u8>, Difference> {
    let mut files = Vec::new();
    for length in [bytes, bytes + more] {
        let left = calls.make(Call::WriteModel, &Input::of_model(list), &Lengths::of_file(length))?;
        if (left.number, left.value()) != (100, bytes as u64) || left.file()[bytes..] != left.old_file()[bytes..] {
            return Err(broken("not written, or not as so many bytes, or more is written", list, left.file()));
        }
        files.push(left.file()[..bytes].to_vec());
    }
    if files[0] != files[1] {
        return Err(broken("another file in a longer buffer", list, &files[1]));
    }
    Ok(files.swap_remove(0))
}

/// These words are written as this file.
pub fn written_as(calls: &mut impl Calls, words: &[i32], file: &[u8], more: usize) -> Result<(), Difference> {
    if written(calls, words, file.len(), more)? != file {
        return Err(broken("a model is not written as the file that it was read from", words, file));
    }
    Ok(())
}

/// This file is read as these words, into a buffer of their size and into one that is longer, of which the rest stands.
pub fn read_as(calls: &mut impl Calls, file: &[u8], words: &[i32], more: usize) -> Result<(), Difference> {
    for length in [words.len(), words.len() + more] {
        let left = calls.make(Call::ReadModel, &Input::of_file(file), &Lengths::of_words(length))?;
        let same = left.words().starts_with(words) && left.words()[words.len()..] == left.old_words()[words.len()..];
        if (left.number, left.value()) != (100, words.len() as u64) || !same {
            return Err(broken("a written file is not read as the words that were written", words, file));
        }
    }
    Ok(())
}

/// A list that begins with a model's words is written, its file is read as these words, and they are written as that
/// file. Gives the file.
pub fn round_trip(calls: &mut impl Calls, list: &[i32], more: usize) -> Result<Vec<u8>, Difference> {
    let plant = Plant::from_words(list).expect("a list that is written passes its questions");
    let bytes = model_file_bytes(&plant);
    refused_by_40(calls, list, bytes)?;
    let file = written(calls, list, bytes, more)?;
    read_as(calls, &file, plant.words(), more)?;
    written_as(calls, plant.words(), &file, more)?;
    Ok(file)
}

/// An answer: its code, its passes and the file of its table.
#[derive(PartialEq)]
pub(crate) struct Decided {
    pub(crate) code: u64,
    pub(crate) passes: u64,
    pub(crate) table: Vec<u8>,
}

impl Calls for Comparison {
    fn make(&mut self, call: Call, input: &Input, lengths: &Lengths) -> Result<Left, Difference> {
        self.call("there and back", call, input, lengths, Desk::default())
    }
}

impl Comparison {
    fn some_more(&mut self) -> usize {
        1 + self.random.below(40)
    }

    /// A model goes there and back, half of the time with words behind it. Gives its file.
    pub(crate) fn written_case(&mut self, plant: &Plant) -> Result<Vec<u8>, Difference> {
        let behind = if self.random.chance(1, 2) { self.some_more() } else { 0 };
        let list = of_length(&mut self.random, plant.words(), plant.words().len() + behind);
        for ((kind, _), is) in WRITTEN.iter().zip(kinds(plant, &list)) {
            if is {
                note(&mut self.counts.written, *kind);
            }
        }
        let more = self.some_more();
        round_trip(self, &list, more)
    }

    /// After a call on a damaged input: a file that reads is written again as it is, and what was written of words that
    /// pass is read as them.
    pub(crate) fn there_and_back(&mut self, call: Call, input: &Input, left: &Left) -> Result<(), Difference> {
        let more = self.some_more();
        match (call, left.number) {
            (Call::ReadModel, 100) => {
                note(&mut self.counts.written, "a damaged file that reads");
                written_as(self, &left.words()[..left.value() as usize], input.file(), more)
            }
            (Call::WriteModel, 100) => {
                note(&mut self.counts.written, "damaged words that pass");
                let plant = Plant::from_words(input.model()).expect("what is written passes its questions");
                read_as(self, &left.file()[..left.value() as usize], plant.words(), more)
            }
            _ => Ok(()),
        }
    }

    /// decide on a model's file, in a buffer of so many bytes, gives what was found on its words.
    pub(crate) fn decided_alike(
        &mut self,
        plant: &Plant,
        file: &[u8],
        limit: u32,
        room: usize,
        by_words: &Decided,
    ) -> Result<(), Difference> {
        let (number, buffer) = self.decide("a written file", file, room, limit)?;
        let (code, passes) = (number >> 32, number as u32 as u64);
        let table = if code < 100 { Vec::new() } else { written_table(plant, &buffer).to_vec() };
        if code < 100 || *by_words != (Decided { code, passes, table }) {
            return Err(broken("a written file is not decided as its words are analysed", plant.words(), file));
        }
        Ok(())
    }
}
