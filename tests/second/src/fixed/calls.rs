//! The fixed cases of the C calls beside decide and check: the documents' numbers, and sweeps over
//! every length, every bit and every word of small inputs.

use crate::c_calls::exports::Call;
use crate::c_calls::slices::{Input, Left, Lengths, Slice};
use crate::fixed::documents::EDGES;
use crate::held::compare::{Comparison, Difference, MOST_ROOM};
use crate::inputs::draft::Draft;
use crate::inputs::examples;
use crate::inputs::generate::close;
use crate::reference::desk::Desk;
use crate::reference::files::{field, model_file, table_file};
use crate::reference::model::{words_per_location, Plant};

/// Everything that a call can be handed for one model, all of the exact length.
pub(crate) struct Whole {
    pub(crate) model: Vec<i32>,
    pub(crate) table: Vec<i32>,
    model_file: Vec<u8>,
    table_file: Vec<u8>,
    lengths: Lengths,
}

impl Whole {
    pub(crate) fn new(draft: &Draft, table: Vec<i32>) -> Whole {
        let model = draft.words();
        let plant = Plant::from_words(&model).expect("an example passes its questions");
        let size = plant.table_words();
        Whole {
            model_file: model_file(&model),
            table_file: table_file(&plant, &table),
            lengths: Lengths::of_table(size).with(Slice::FileRoom, plant.table_file_room()),
            model,
            table,
        }
    }

    fn p() -> Whole {
        Whole::new(&examples::plant_p(), examples::plant_p_table())
    }

    /// P cut at x = 5.
    pub(crate) fn cut_p() -> Whole {
        Whole::new(&examples::plant_p_cut(), examples::plant_p_cut_table())
    }

    /// A plant with its table at rest.
    pub(crate) fn at_rest(draft: &Draft) -> Whole {
        let words = draft.words();
        let plant = Plant::from_words(&words).expect("an example passes its questions");
        let mut table = vec![0; plant.table_words()];
        close(&plant, &mut table, 1_000);
        Whole::new(draft, table)
    }

    pub(crate) fn input(&self, call: Call, limit: u32) -> Input<'_> {
        let file = if call == Call::ReadModel { &self.model_file } else { &self.table_file };
        Input::of_model(&self.model).with_table(&self.table).with_file(file).under(limit)
    }

    pub(crate) fn lengths(&self, call: Call) -> Lengths {
        match call {
            Call::ReadModel => self.lengths.with(Slice::Words, self.model.len()),
            Call::WriteModel => self.lengths.with(Slice::FileRoom, self.model_file.len()),
            _ => self.lengths,
        }
    }
}

const LIMIT: u32 = 9;

impl Comparison {
    pub(crate) fn fixed_calls(&mut self) -> Result<(), Difference> {
        self.numbers_of_p()?;
        self.numbers_of_lists()?;
        self.seven_variables()?;
        self.numbers_of_the_desk()?;
        self.every_length()?;
        self.every_word_of_a_model()?;
        self.every_word_of_a_table()?;
        self.every_end_and_bit()
    }

    pub(crate) fn fixed(
        &mut self,
        label: &str,
        call: Call,
        input: &Input,
        lengths: &Lengths,
        desk: Desk,
    ) -> Result<Left, Difference> {
        self.counts.fixed += 1;
        self.call(label, call, input, lengths, desk)
    }

    /// A call on a fresh desk whose number and value the document gives.
    pub(crate) fn gives(
        &mut self,
        label: &str,
        call: Call,
        input: &Input,
        lengths: &Lengths,
        wanted: (u32, u64),
    ) -> Result<Left, Difference> {
        let left = self.fixed(label, call, input, lengths, Desk::default())?;
        let found = (left.number, left.value());
        if found == wanted {
            return Ok(left);
        }
        Err(Difference {
            text: format!("{}, {label}: the document wants {wanted:?}, both give {found:?}", call.name()),
        })
    }

    /// Plant P in every call.
    fn numbers_of_p(&mut self) -> Result<(), Difference> {
        let p = Whole::p();
        let lengths = p.lengths(Call::Analyse);
        for (call, number, value) in [
            (Call::ReadModel, 100, 25),
            (Call::Ceiling, 100, 44),
            (Call::Check, 100, 0),
            (Call::Analyse, 100, 1),
            (Call::ReadTable, 100, 20),
            (Call::WriteTable, 100, 61),
            (Call::Desk, 100, 1),
            (Call::Quote, 100, 0),
            (Call::WriteModel, 100, 97),
        ] {
            self.gives("P", call, &p.input(call, LIMIT), &p.lengths(call), (number, value))?;
        }
        let left = self.gives("P, limit 0", Call::Analyse, &p.input(Call::Analyse, 0), &lengths, (102, 0))?;
        if left.words().iter().any(|&word| word != 0) {
            return Err(Difference { text: "P, limit 0: table 0 is not all zeros".to_string() });
        }
        let unknown = Whole::new(&examples::plant_p_unknown(), examples::plant_p_table());
        self.gives("unknown P", Call::Analyse, &unknown.input(Call::Analyse, LIMIT), &lengths, (101, 0))?;
        self.gives("unknown P", Call::Check, &unknown.input(Call::Check, 0), &lengths, (34, 0))?;
        let mut narrow = examples::plant_p_table();
        narrow[16] = 3;
        let wider = examples::plant_p_wider();
        self.gives("narrow", Call::Check, &p.input(Call::Check, 0).with_table(&narrow), &lengths, (33, 0))?;
        self.gives("wider", Call::Check, &p.input(Call::Check, 0).with_table(&wider), &lengths, (100, 0))?;
        Ok(())
    }

    /// Lists of words whose numbers the readings give, and the largest ceiling.
    fn numbers_of_lists(&mut self) -> Result<(), Difference> {
        let lengths = Lengths::default();
        for (list, number) in [
            (&[][..], 5),
            (&[7, 1, 0], 5),
            (&[7, 1, 0, 0], 5),
            (&[7, 1, 0, 0, 1], 2),
            (&[0, 65, 0, 0, 1], 2),
            (&[6, 65, -1, 0, 1], 3),
            (&[1, 1, 129, 0, 1], 4),
            (&[1, 1, 0, 65, 1], 4),
            (&[1, 1, 0, 0, 1], 5),
        ] {
            for call in Call::on_words() {
                self.gives("a short list", call, &Input::of_model(list), &lengths, (number, 0))?;
            }
        }
        let widest = examples::widest().words();
        let input = Input::of_model(&widest);
        self.gives("the largest ceiling without a cut", Call::Ceiling, &input, &lengths, (100, 7_680_000_768))?;
        Ok(())
    }

    /// A whole model of seven variables, with room for its 210 words (document 02, T-04): still refused by 2.
    fn seven_variables(&mut self) -> Result<(), Difference> {
        let model = examples::at_rest(7).words();
        let (table, file) = (vec![0; words_per_location(7)], model_file(&model));
        for call in Call::ALL {
            let file = if call == Call::ReadModel { file.clone() } else { field(6, &[0]) };
            let words = if call == Call::ReadModel { model.len() } else { table.len() };
            let lengths = Lengths::of_table(table.len()).with(Slice::Words, words).with(Slice::FileRoom, MOST_ROOM);
            let input = Input::of_model(&model).with_table(&table).with_file(&file).under(LIMIT);
            self.gives("n 7", call, &input, &lengths, (2, 0))?;
        }
        Ok(())
    }

    /// Desk calls on plant P, which takes one pass: counters before, limit, number, counters after.
    fn numbers_of_the_desk(&mut self) -> Result<(), Difference> {
        const MOST: u32 = u32::MAX;
        let p = Whole::p();
        for (jobs, passes, limit, number, jobs_after, passes_after) in [
            (0, 0, MOST, 100, 1, 1),
            (0, 0, 0, 102, 1, 0),
            (7, 9, 5, 100, 8, 10),
            (0, 1, MOST, 22, 0, 1),
            (0, MOST - 1, 1, 100, 1, MOST),
            (0, MOST - 5, 5, 100, 1, MOST - 4),
            (0, MOST - 5, 6, 22, 0, MOST - 5),
            (0, MOST, 0, 102, 1, MOST),
            (0, MOST, 1, 22, 0, MOST),
            (MOST - 1, 0, 1, 100, MOST, 1),
            (MOST, 0, 0, 22, MOST, 0),
            (MOST, MOST, 1, 22, MOST, MOST),
        ] {
            let before = Desk { jobs, passes };
            let input = p.input(Call::Desk, limit);
            let left = self.fixed("P at the desk", Call::Desk, &input, &p.lengths(Call::Desk), before)?;
            let wanted = (number, Desk { jobs: jobs_after, passes: passes_after });
            if (left.number, left.desk()) != wanted {
                return Err(Difference {
                    text: format!(
                        "{before:?}, limit {limit}: wanted {wanted:?}, both give {} {:?}",
                        left.number,
                        left.desk()
                    ),
                });
            }
        }
        Ok(())
    }

    /// Every slice of every call, of every length up to three more than is due, on plant P, cut and not, and on a plant
    /// of edition 2.
    fn every_length(&mut self) -> Result<(), Difference> {
        for p in [Whole::p(), Whole::cut_p(), Whole::at_rest(&examples::set_to([2, 5]))] {
            for call in Call::ALL {
                for slice in call.sized() {
                    self.every_length_of(&p, call, slice)?;
                }
            }
        }
        Ok(())
    }

    fn every_length_of(&mut self, p: &Whole, call: Call, slice: Slice) -> Result<(), Difference> {
        let (whole, exact) = (p.input(call, LIMIT), p.lengths(call));
        let words = [whole.words(slice), &[1, 0, -1]].concat();
        let bytes = [whole.bytes(slice), &[0; 3]].concat();
        let due = if slice.is_read() { whole.length(slice) } else { exact.of(slice) };
        for length in 0..=due + 3 {
            let (input, lengths) = if !slice.is_read() {
                (whole, exact.with(slice, length))
            } else if slice.is_bytes() {
                (whole.with_bytes(slice, &bytes[..length]), exact)
            } else {
                (whole.with_words(slice, &words[..length]), exact)
            };
            self.fixed("P, every length", call, &input, &lengths, Desk::default())?;
        }
        Ok(())
    }

    /// Every word of the water-level model at every edge, in every call that takes model words; the same
    /// with cuts in two of its locations, and of a plant of edition 2. What is written is read again.
    fn every_word_of_a_model(&mut self) -> Result<(), Difference> {
        let label = "a plant with another word";
        for draft in [examples::water_level(20), examples::water_level_cut(), examples::set_to([2, 5])] {
            let (words, whole) = (draft.words(), Whole::at_rest(&draft));
            for index in 0..words.len() {
                for edge in EDGES {
                    let mut changed = words.clone();
                    changed[index] = edge;
                    for call in Call::on_words() {
                        let input = whole.input(call, 20).with_model(&changed);
                        let left = self.fixed(label, call, &input, &whole.lengths(call), Desk::default())?;
                        self.there_and_back(call, &input, &left)?;
                    }
                }
            }
        }
        Ok(())
    }

    /// Every word of P's table at every edge, cut and not, and of the table of a plant of edition 2.
    fn every_word_of_a_table(&mut self) -> Result<(), Difference> {
        for p in [Whole::p(), Whole::cut_p(), Whole::at_rest(&examples::set_to([2, 5]))] {
            for index in 0..p.table.len() {
                for edge in EDGES {
                    let mut changed = p.table.clone();
                    changed[index] = edge;
                    for call in [Call::Check, Call::WriteTable] {
                        let input = p.input(call, 0).with_table(&changed);
                        self.fixed("P's table with another word", call, &input, &p.lengths(call), Desk::default())?;
                    }
                }
            }
        }
        Ok(())
    }

    /// P's file and its table file at every length, and every bit of both flipped; the same of P cut and of a plant of
    /// edition 2. A model file that still reads is written again.
    fn every_end_and_bit(&mut self) -> Result<(), Difference> {
        for p in [Whole::p(), Whole::cut_p(), Whole::at_rest(&examples::set_to([2, 5]))] {
            for call in [Call::ReadModel, Call::ReadTable] {
                let (whole, lengths) = (p.input(call, 0), p.lengths(call));
                for length in 0..whole.file().len() {
                    let input = whole.with_file(&whole.file()[..length]);
                    self.fixed("a file that ends early", call, &input, &lengths, Desk::default())?;
                }
                for bit in 0..8 * whole.file().len() {
                    let mut flipped = whole.file().to_vec();
                    flipped[bit / 8] ^= 1 << (bit % 8);
                    let input = whole.with_file(&flipped);
                    let left = self.fixed("a file with a bit flipped", call, &input, &lengths, Desk::default())?;
                    self.there_and_back(call, &input, &left)?;
                }
            }
        }
        Ok(())
    }
}
