//! The fixed cases of cut locations (document 02, T-12), of all calls: the numbers of question 46 and of
//! those that pieces move, in words and in files.

use crate::c_calls::exports::Call;
use crate::c_calls::slices::{Input, Lengths, Slice};
use crate::fixed::calls::Whole;
use crate::fixed::documents::{answer, cut_p_file, cut_p_table_file, p_file};
use crate::held::compare::{hex, Comparison, Difference, MOST_ROOM};
use crate::inputs::draft::Draft;
use crate::inputs::examples::{self, P_CUT, P_FORBIDDEN, P_LOCATION, P_WORDS};
use crate::reference::files::{field, file_of_words, model_file};
use crate::reference::model::{Sizes, LEVEL};

/// The buffer that the table file of P cut needs: eight pieces.
const CUT_P_ROOM: usize = 7 + 8 * (15 + 16);

const LIMIT: u32 = 9;

/// The water-level plant with these fields behind its boxes.
fn water_level_with(fields: &[[i32; 3]]) -> Vec<u8> {
    let mut model = model_file(&examples::water_level(20).words());
    fields.iter().for_each(|cut| model.extend(field(8, cut)));
    model
}

/// P's file with these words changed and these bytes behind its boxes.
fn p_with(changes: &[(usize, i32)], bytes: &[u8]) -> Vec<u8> {
    let mut words = examples::plant_p().words();
    changes.iter().for_each(|&(place, word)| words[place] = word);
    let sizes = Sizes { n: 2, locations: 1, switches: 0, forbidden: 1 };
    [&file_of_words(&sizes, &words), bytes].concat()
}

/// P with bytes where the end of its file is expected: what they are, the file, and its number.
fn files_of_p() -> Vec<(&'static str, Vec<u8>, u32)> {
    let p = |bytes: &[u8]| p_with(&[], bytes);
    let cut = |location, variable, value| field(8, &[location, variable, value]);
    let after = |first: Vec<u8>, more: &[u8]| [&first, more].concat();
    // A level of 1,000,001 (11), and a box of location 1 (19).
    let (bad_invariant, bad_box) = ([(P_LOCATION + 3, LEVEL + 1)], [(P_FORBIDDEN, 1)]);
    vec![
        ("the first byte of a cut", p(&[8]), 46),
        ("two bytes of a cut", p(&[8, 0]), 46),
        ("a cut without its words", p(&[8, 0, 12]), 46),
        ("a cut short of one byte", p(&cut(0, 0, 5)[..14]), 46),
        ("a cut of no words", p(&field(8, &[])), 46),
        ("a cut of two words", p(&field(8, &[0, 0])), 46),
        ("a cut of four words", p(&field(8, &[0, 0, 5, 0])), 46),
        ("a cut of location 1 of one", p(&cut(1, 0, 5)), 46),
        ("a cut of location -1", p(&cut(-1, 0, 5)), 46),
        ("two cuts of one location", p(&after(cut(0, 0, 5), &cut(0, 1, 5))), 46),
        ("a cut of variable -1", p(&cut(0, -1, 5)), 46),
        ("a cut of variable -1 and value 0", p(&cut(0, -1, 0)), 46),
        ("a cut of variable -2", p(&cut(0, -2, 5)), 46),
        ("a cut of variable 2 of two", p(&cut(0, 2, 5)), 46),
        ("a cut at the low end", p(&cut(0, 0, 0)), 46),
        ("a cut at the high end", p(&cut(0, 1, 10)), 46),
        ("a cut below the invariant", p(&cut(0, 0, -1)), 46),
        ("a cut above the invariant", p(&cut(0, 1, 11)), 46),
        ("tag 7 after the boxes", p(&field(7, &[0, 0, 5])), 8),
        ("tag 9 after the boxes", p(&[9]), 8),
        ("a box too many", p(&field(4, &[0, 0, 0, 0, 0])), 8),
        ("a byte after a cut", p(&after(cut(0, 0, 5), &[0])), 8),
        ("a box after a cut", p(&after(cut(0, 0, 5), &field(4, &[0, 0, 0, 0, 0]))), 8),
        ("a cut of variable -1, and a byte", p(&after(cut(0, -1, 0), &[0])), 46),
        ("a cut of variable -2, and a byte", p(&after(cut(0, -2, 0), &[0])), 8),
        ("a bad invariant and a cut of variable -1", p_with(&bad_invariant, &cut(0, -1, 5)), 46),
        ("a bad invariant and a cut of variable -2", p_with(&bad_invariant, &cut(0, -2, 5)), 11),
        ("a bad invariant and half a cut", p_with(&bad_invariant, &cut(0, 0, 5)[..9]), 46),
        ("a bad box and a cut of variable -1", p_with(&bad_box, &cut(0, -1, 5)), 46),
        ("a bad box and a cut of variable -2", p_with(&bad_box, &cut(0, -2, 5)), 19),
        ("a bad box and a cut at an end", p_with(&bad_box, &cut(0, 0, 10)), 19),
        ("a cut next to the low end", p(&cut(0, 0, 1)), 100),
        ("a cut next to the high end", p(&cut(0, 1, 9)), 100),
    ]
}

/// Cuts of the water-level plant's four locations, in order and not.
fn files_of_the_water_level() -> Vec<(&'static str, Vec<u8>, u32)> {
    vec![
        ("cuts of two locations", water_level_with(&[[1, 1, 10], [2, 0, 100]]), 100),
        ("cuts in another order", water_level_with(&[[2, 0, 100], [1, 1, 10]]), 46),
        ("a cut twice, others between", water_level_with(&[[1, 1, 10], [2, 0, 100], [1, 1, 10]]), 46),
        ("a cut of location 4 of four", water_level_with(&[[1, 1, 10], [4, 0, 100]]), 46),
        ("a cut of a clock of zero width", water_level_with(&[[0, 1, 0]]), 46),
        ("a late wrong cut before an early one", water_level_with(&[[0, 1, 0], [0, 0, 5]]), 46),
    ]
}

/// The words of P's cut, and the number of a model that ends with them.
const WORDS_OF_P: [([i32; 2], u32); 17] = [
    ([-1, 0], 100),
    ([-1, 5], 46),
    ([-1, -1], 46),
    ([-2, 0], 46),
    ([-2, 5], 46),
    ([i32::MIN, 5], 46),
    ([2, 5], 46),
    ([2, 0], 46),
    ([i32::MAX, 5], 46),
    ([0, 0], 46),
    ([0, 10], 46),
    ([1, 0], 46),
    ([1, 10], 46),
    ([0, -1], 46),
    ([0, 11], 46),
    ([0, 1], 100),
    ([1, 9], 100),
];

/// A change to the words of the table of P cut, and the checker's number: 8 pieces of 5 words, the last
/// two of them on y = 10 with x 2..5 and x 5..8.
fn tables_of_p() -> Vec<(&'static str, Vec<i32>, u32)> {
    let with = |changes: &[(usize, i32)]| {
        let mut table = examples::plant_p_cut_table();
        changes.iter().for_each(|&(place, word)| table[place] = word);
        table
    };
    // x 0..5 and x 5..10 on y = 10, y 2..10 on x = 0, and y 10 on x = 10.
    let wider = [(31, 0), (37, 10), (4, 10), (10, 1), (11, 10), (12, 10), (13, 10), (14, 10)];
    vec![
        ("its table", with(&[]), 100),
        ("its table, both pieces wider", with(&[(31, 0), (37, 10)]), 33),
        ("the same with what is then reached", with(&wider), 100),
        ("the first piece narrower", with(&[(31, 3)]), 33),
        ("the second piece narrower", with(&[(37, 7)]), 33),
        ("the value in the first piece alone", with(&[(36, 6)]), 33),
        ("the value in the second piece alone", with(&[(32, 4)]), 33),
        ("the first piece past the value", with(&[(32, 6)]), 32),
        ("the second piece before the value", with(&[(36, 4)]), 32),
        ("the first piece on the other side", with(&[(31, 6), (32, 8)]), 32),
        ("the second piece on the other side", with(&[(36, 2), (37, 4)]), 32),
        ("the pieces exchanged", with(&[(31, 5), (32, 8), (36, 2), (37, 5)]), 32),
        ("a second piece on x = 0", with(&[(5, 1), (8, 2), (9, 5)]), 32),
        ("a word in the absent second piece on x = 0", with(&[(8, 2)]), 32),
        ("no second piece", with(&[(35, 0), (36, 0), (37, 0), (38, 0), (39, 0)]), 33),
        ("no pieces", vec![0; 40], 33),
    ]
}

/// A table file's records for P cut (location, face, piece, box), and check's number.
fn records_of_p() -> Vec<(&'static str, Vec<Vec<i32>>, u32)> {
    let (face_0, first, second) = (vec![0, 0, 0, 0, 0, 2, 5], vec![0, 3, 0, 2, 5, 10, 10], vec![0, 3, 1, 5, 8, 10, 10]);
    let of = |piece: i32| vec![0, 3, piece, 5, 8, 10, 10];
    let all = vec![face_0.clone(), first.clone(), second.clone()];
    let left_out: Vec<Vec<i32>> = all.iter().map(|record| [&record[..2], &record[3..]].concat()).collect();
    let own_wall = vec![0, 0, 1, 0, 0, 2, 5];
    vec![
        ("its pieces", all, 100),
        ("piece 2", vec![face_0.clone(), first.clone(), of(2)], 37),
        ("piece -1", vec![face_0.clone(), of(-1)], 37),
        ("the second piece first", vec![face_0.clone(), second.clone(), first.clone()], 37),
        ("a piece twice", vec![face_0.clone(), second.clone(), second.clone()], 37),
        ("the piece left out", left_out, 36),
        ("the piece left out once", vec![face_0.clone(), first.clone(), vec![0, 3, 5, 8, 10, 10]], 36),
        ("a second piece on x = 0", vec![face_0, own_wall, first, second], 32),
    ]
}

/// The table file of these records.
fn file_of_records(records: &[Vec<i32>]) -> Vec<u8> {
    let mut file = field(6, &[records.len() as i32]);
    records.iter().for_each(|record| file.extend(field(5, record)));
    file
}

impl Comparison {
    pub(crate) fn fixed_cuts(&mut self) -> Result<(), Difference> {
        self.answers_of_cut_p()?;
        self.files_with_cuts()?;
        self.words_with_cuts()?;
        self.tables_of_pieces()?;
        self.files_of_pieces()?;
        self.largest_ceiling()
    }

    /// P cut at x = 5 in every call.
    fn answers_of_cut_p(&mut self) -> Result<(), Difference> {
        let (p, table) = (cut_p_file(), cut_p_table_file());
        for limit in [1, 2, u32::MAX] {
            let buffer = self.decide_gives("P cut", &p, CUT_P_ROOM, limit, answer(100, 1))?;
            if buffer[..table.len()] != table {
                return Err(Difference { text: format!("P cut: the table file is {}", hex(&buffer[..table.len()])) });
            }
        }
        self.decide_gives("P cut, limit 0", &p, CUT_P_ROOM, 0, answer(102, 0))?;
        self.decide_gives("P cut, buffer one byte short", &p, CUT_P_ROOM - 1, 9, answer(39, 0))?;
        self.decide_gives("P cut, the buffer of P", &p, 7 + 4 * 27, 9, answer(39, 0))?;
        let whole = Whole::cut_p();
        for (call, number, value) in [
            (Call::ReadModel, 100, 25),
            // On both walls of x 1 + 10; on both walls of y the two pieces 1 + 5 each.
            (Call::Ceiling, 100, 46),
            (Call::Check, 100, 0),
            (Call::Analyse, 100, 1),
            (Call::ReadTable, 100, 40),
            (Call::WriteTable, 100, 7 + 3 * 31),
            (Call::Desk, 100, 1),
            (Call::Quote, 100, 0),
            (Call::WriteModel, 100, 97 + 15),
        ] {
            self.gives("P cut", call, &whole.input(call, LIMIT), &whole.lengths(call), (number, value))?;
        }
        for call in [Call::Analyse, Call::Desk, Call::ReadTable] {
            let lengths = whole.lengths(call).with(Slice::Words, 39);
            self.gives("P cut, a word short", call, &whole.input(call, LIMIT), &lengths, (20, 0))?;
        }
        let lengths = whole.lengths(Call::Analyse).with(Slice::Work, 39);
        self.gives("P cut, a word short", Call::Analyse, &whole.input(Call::Analyse, LIMIT), &lengths, (21, 0))?;
        Ok(())
    }

    /// Model files with cuts, in decide, check and read_model.
    fn files_with_cuts(&mut self) -> Result<(), Difference> {
        for (label, model, number) in files_of_p().into_iter().chain(files_of_the_water_level()) {
            let (decided, _) = self.decide(label, &model, MOST_ROOM, 1_000)?;
            let left = self.call_read_model(label, &model)?;
            let checked = self.check(label, &model, &field(6, &[0]))?;
            // A model that is answered has no table without faces.
            let due = if number == 100 { 33 } else { number as u64 };
            if (decided >> 32, left.0, checked) != (number as u64, number, due) {
                return Err(Difference {
                    text: format!("{label}: wanted {number}, both give {}, {} and {checked}", decided >> 32, left.0),
                });
            }
            if number != 100 && left.1.iter().any(|&word| word != 0) {
                return Err(Difference { text: format!("{label}: the word buffer is not zeroed") });
            }
        }
        Ok(())
    }

    /// The number of read_model, and the words it left.
    fn call_read_model(&mut self, label: &str, file: &[u8]) -> Result<(u32, Vec<i32>), Difference> {
        let (input, lengths) = (Input::of_file(file), Lengths::of_words(200));
        self.counts.fixed += 3;
        let left = self.call(label, Call::ReadModel, &input, &lengths, Default::default())?;
        Ok((left.number, left.words().to_vec()))
    }

    /// Model words that end with the words of a cut.
    fn words_with_cuts(&mut self) -> Result<(), Difference> {
        let whole = Whole::cut_p();
        for (cut, number) in WORDS_OF_P {
            let mut model = examples::plant_p().words();
            model[P_CUT..].copy_from_slice(&cut);
            for call in Call::on_words() {
                // With no buffers at all, so that a call stops at 20 or 40 if it comes so far.
                let wanted = match (number, call.of_a_model_alone()) {
                    (100, 100) => continue,
                    (100, stopped) => stopped,
                    _ => number,
                };
                let input = Input::of_model(&model);
                self.gives("P with a cut", call, &input, &Lengths::default(), (wanted, 0))?;
                // One word short: 5, whatever the words are.
                let input = Input::of_model(&model[..P_WORDS - 1]);
                self.gives("P with half a cut", call, &input, &Lengths::default(), (5, 0))?;
            }
            // A bad box comes first, and so does a bad invariant.
            for (place, word, earlier) in [(P_FORBIDDEN, 1, 19), (P_LOCATION + 3, LEVEL + 1, 11)] {
                let mut model = model.clone();
                model[place] = word;
                for call in Call::on_words() {
                    let input = Input::of_model(&model);
                    self.gives("P, wrong before its cut", call, &input, &Lengths::default(), (earlier, 0))?;
                }
            }
        }
        // The record before the last is asked before the last one.
        let mut two = examples::water_level_cut().words();
        let cuts = two.len() - 8;
        two[cuts + 3] = 20;
        self.gives("a cut at an end", Call::Ceiling, &Input::of_model(&two), &Lengths::default(), (46, 0))?;
        self.gives("P", Call::Ceiling, &whole.input(Call::Ceiling, 0), &Lengths::default(), (100, 46))?;
        Ok(())
    }

    /// Tables of P cut, as words.
    fn tables_of_pieces(&mut self) -> Result<(), Difference> {
        let whole = Whole::cut_p();
        for (label, table, number) in tables_of_p() {
            let input = whole.input(Call::Check, 0).with_table(&table);
            self.gives(label, Call::Check, &input, &whole.lengths(Call::Check), (number, 0))?;
            // What is well formed can be written.
            let left = self.call(
                label,
                Call::WriteTable,
                &whole.input(Call::WriteTable, 0).with_table(&table),
                &whole.lengths(Call::WriteTable),
                Default::default(),
            )?;
            self.counts.fixed += 1;
            if (left.number == 32) != (number == 32) {
                return Err(Difference { text: format!("{label}: write_table gives {}", left.number) });
            }
        }
        Ok(())
    }

    /// Table files with pieces.
    fn files_of_pieces(&mut self) -> Result<(), Difference> {
        let (p, cut_p) = (p_file(), cut_p_file());
        for (label, records, number) in records_of_p() {
            self.check_gives(label, &cut_p, &file_of_records(&records), number as u64)?;
        }
        // The piece in a model without cuts, and at a location without one.
        self.check_gives("a piece in P", &p, &file_of_records(&[vec![0, 0, 0, 0, 0, 2, 5]]), 36)?;
        let model = model_file(&examples::water_level_cut().words());
        for (location, piece, number) in [(0, 0, 33), (0, 1, 37), (1, 0, 33), (1, 1, 33), (2, 1, 32), (3, 1, 37)] {
            // Face 1, the high wall of the level: of the locations 1 (cut by the clock) and 2 (by the level).
            let (wall, clock) = [(100, 0), (150, 15), (150, 0), (50, 0)][location as usize];
            let records = [vec![location, 1, piece, wall, wall, clock * piece, clock * piece]];
            self.check_gives("a piece of the water level", &model, &file_of_records(&records), number)?;
        }
        // The count: eight pieces of P cut.
        for (count, number) in [(8, 36), (9, 35), (4, 36), (5, 36), (-1, 35)] {
            self.check_gives("a count of pieces", &cut_p, &field(6, &[count]), number)?;
        }
        for (count, number) in [(4, 36), (5, 35)] {
            self.check_gives("a count of faces", &p, &field(6, &[count]), number)?;
        }
        Ok(())
    }

    /// The largest ceiling: 64 locations of six variables, all of the widest, all cut.
    fn largest_ceiling(&mut self) -> Result<(), Difference> {
        for value in [1 - LEVEL, 0, LEVEL - 1] {
            let cuts = (0..64).map(|l| (l, l % 6, value)).collect();
            let draft = Draft { cuts, ..examples::widest() };
            let words = draft.words();
            let wanted = (100, 12_800_001_408);
            self.gives("the largest ceiling", Call::Ceiling, &Input::of_model(&words), &Lengths::default(), wanted)?;
        }
        Ok(())
    }
}
