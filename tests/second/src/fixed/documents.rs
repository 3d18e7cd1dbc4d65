//! The comparison's fixed cases of decide and check: the documents', source 000's examples, the sample models, and
//! sweeps over every length, every bit and every word of small files; and the list of all fixed cases.

use crate::c_calls::exports::Call;
use crate::c_calls::slices::{Input, Lengths};
use crate::fixed::calls::Whole;
use crate::held::compare::{hex, written_table, Comparison, Difference, MOST_ROOM};
use crate::inputs::draft::{grid, Draft};
use crate::inputs::examples::{self, set_to};
use crate::inputs::samples;
use crate::reference::files::{field, file_of_words, model_file, model_of_file, parse_table, table_file};
use crate::reference::model::{Plant, HEAD_WORDS, LEVEL, RATE};

/// The buffer that plant P needs.
const P_ROOM: usize = 7 + 4 * (11 + 16);

/// Words at the edges of the questions.
pub(crate) const EDGES: [i32; 25] = [
    i32::MIN,
    -LEVEL - 1,
    -LEVEL,
    -RATE - 1,
    -RATE,
    -1,
    0,
    1,
    2,
    3,
    4,
    5,
    6,
    7,
    10,
    11,
    64,
    65,
    128,
    129,
    RATE,
    RATE + 1,
    LEVEL,
    LEVEL + 1,
    i32::MAX,
];

pub(crate) fn answer(code: u64, k: u64) -> u64 {
    code << 32 | k
}

fn expect(label: &str, wanted: u64, found: u64) -> Result<(), Difference> {
    if wanted == found {
        return Ok(());
    }
    Err(Difference { text: format!("{label}: the document wants {wanted:#x}, both give {found:#x}") })
}

pub(crate) fn p_file() -> Vec<u8> {
    model_file(&examples::plant_p().words())
}

/// The table file of P's answer, field by field.
fn p_table_file() -> Vec<u8> {
    let mut table = field(6, &[2]);
    table.extend(field(5, &[0, 0, 0, 0, 2, 5]));
    table.extend(field(5, &[0, 3, 2, 8, 10, 10]));
    table
}

/// The table file of the answer of `set_to([2, 5])`, field by field.
fn set_to_table_file() -> Vec<u8> {
    let mut table = field(6, &[4]);
    table.extend(field(5, &[0, 0, 0, 0, 0, 0]));
    table.extend(field(5, &[0, 1, 10, 10, 0, 0]));
    table.extend(field(5, &[0, 2, 0, 10, 0, 0]));
    table.extend(field(5, &[1, 1, 10, 10, 2, 5]));
    table
}

/// P cut at x = 5, and the table file of its answer, field by field.
pub(crate) fn cut_p_file() -> Vec<u8> {
    let mut model = p_file();
    model.extend(field(8, &[0, 0, 5]));
    model
}

pub(crate) fn cut_p_table_file() -> Vec<u8> {
    let mut table = field(6, &[3]);
    table.extend(field(5, &[0, 0, 0, 0, 0, 2, 5]));
    table.extend(field(5, &[0, 3, 0, 2, 5, 10, 10]));
    table.extend(field(5, &[0, 3, 1, 5, 8, 10, 10]));
    table
}

fn p_unknown_file() -> Vec<u8> {
    model_file(&examples::plant_p_unknown().words())
}

fn p_without_start() -> Vec<u8> {
    let mut draft = examples::plant_p();
    draft.locations[0].start = None;
    model_file(&draft.words())
}

fn p_up_to(level: i32) -> Vec<u8> {
    let mut draft = examples::plant_p();
    draft.locations[0].invariant[3] = level;
    model_file(&draft.words())
}

/// Tables of as many words as the library's calls hold at first, 160, and then, 1,280, with those next to
/// them: variables, cells of a row, how many of them are cut, words, passes.
const TABLES_HELD: [(usize, usize, usize, usize, u64); 8] = [
    (1, 26, 0, 156, 1),
    (1, 27, 0, 162, 1),
    (2, 7, 1, 160, 3),
    (2, 8, 0, 160, 3),
    (2, 8, 1, 180, 3),
    (2, 9, 0, 180, 3),
    (2, 64, 0, 1_280, 3),
    (2, 64, 1, 1_300, 3),
];

/// A row of cells, so many of them cut, all with rates of 1 to 2 and a start box across their low wall. Of one
/// variable the first pass fills all faces. Of two it fills those on y = 10 from x = 2 of each cell on; the
/// second adds what comes over the walls between the cells, and the third what that reaches on y = 10.
fn row_of_starts(n: usize, cells: usize, cuts: usize) -> Draft {
    let mut walls = vec![vec![0, 10]; n];
    walls[0] = (0..=cells as i32).map(|wall| 10 * wall).collect();
    let mut draft = grid(&walls, |_| [1, 2].repeat(n));
    for location in &mut draft.locations {
        let mut start = [2, 5].repeat(n);
        start[..2].copy_from_slice(&[location.invariant[0] - 3, location.invariant[0] + 4]);
        location.start = Some(start);
    }
    draft.cuts = (0..cuts).map(|l| (l, 0, 10 * l as i32 + 5)).collect();
    draft
}

/// A row of forty cells of one variable, of which some are filled from the one before, with as many
/// switches and forbidden boxes as make a model of that many words, 480 or somewhat more.
fn row_of_cells(size: usize) -> Draft {
    let walls = vec![(0..=40).map(|wall| 10 * wall).collect()];
    let mut draft = grid(&walls, |_| vec![1, 2]);
    draft.locations[0].start = Some(vec![0, 5]);
    let rest = size - (HEAD_WORDS + 40 * 9);
    let switches = (7..10).find(|switches| (rest - switches * 10) % 3 == 0).expect("three in a row have every rest");
    draft.switches.truncate(switches);
    draft.forbidden = vec![(30, vec![303, 304]); (rest - switches * 10) / 3];
    draft
}

impl Comparison {
    /// All of them.
    pub fn fixed_cases(&mut self) -> Result<(), Difference> {
        self.answers_of_p()?;
        self.other_answers()?;
        self.tables_of_p()?;
        self.largest_model()?;
        self.words_held()?;
        self.tables_held()?;
        self.source_000()?;
        self.sample_models()?;
        self.lengths_and_bits()?;
        self.words_of_a_model()?;
        self.words_of_a_table()?;
        self.fixed_calls()?;
        self.fixed_starts()?;
        self.fixed_delays()?;
        self.fixed_cuts()?;
        self.fixed_resets()?;
        self.fixed_quotes()?;
        self.fixed_written()?;
        self.fixed_narrower()
    }

    /// A decide call whose number the document gives.
    pub(crate) fn decide_gives(
        &mut self,
        label: &str,
        model: &[u8],
        length: usize,
        limit: u32,
        wanted: u64,
    ) -> Result<Vec<u8>, Difference> {
        let (number, buffer) = self.decide(label, model, length, limit)?;
        expect(label, wanted, number)?;
        self.counts.fixed += 1;
        Ok(buffer)
    }

    /// A check call whose number the document gives.
    pub(crate) fn check_gives(
        &mut self,
        label: &str,
        model: &[u8],
        table: &[u8],
        wanted: u64,
    ) -> Result<(), Difference> {
        let number = self.check(label, model, table)?;
        expect(label, wanted, number)?;
        self.counts.fixed += 1;
        Ok(())
    }

    /// check and qii_check on a table, whose number the document gives.
    pub(crate) fn checks_give(
        &mut self,
        label: &str,
        draft: &Draft,
        table: &[i32],
        number: u32,
    ) -> Result<(), Difference> {
        let whole = Whole::new(draft, table.to_vec());
        self.gives(label, Call::Check, &whole.input(Call::Check, 0), &whole.lengths(Call::Check), (number, 0))?;
        let (model, table) = (whole.input(Call::ReadModel, 0).file(), whole.input(Call::ReadTable, 0).file());
        self.check_gives(label, model, table, number as u64)
    }

    fn answers_of_p(&mut self) -> Result<(), Difference> {
        let (p, table) = (p_file(), p_table_file());
        for limit in [1, 2, 1_000, u32::MAX] {
            let buffer = self.decide_gives("P", &p, P_ROOM, limit, answer(100, 1))?;
            if buffer[..table.len()] != table {
                return Err(Difference { text: format!("P: the table file is {}", hex(&buffer[..table.len()])) });
            }
        }
        self.decide_gives("P, limit 0", &p, P_ROOM, 0, answer(102, 0))?;
        self.decide_gives("P, buffer one byte short", &p, P_ROOM - 1, 9, answer(39, 0))?;
        self.decide_gives("P, no buffer", &p, 0, 9, answer(39, 0))?;
        Ok(())
    }

    fn other_answers(&mut self) -> Result<(), Difference> {
        let (unknown, no_start) = (p_unknown_file(), p_without_start());
        let six = model_file(&examples::at_rest(6).words());
        let seven = model_file(&examples::at_rest(7).words());
        let mut six_called_seven = six.clone();
        six_called_seven[6] = 7; // the last byte of the head's first word
        self.decide_gives("P, x 5, y 9..10 forbidden", &unknown, P_ROOM, 9, answer(101, 0))?;
        self.decide_gives("P, the same under limit 0", &unknown, P_ROOM, 0, answer(101, 0))?;
        self.decide_gives("P without a start, limit 0", &no_start, P_ROOM, 0, answer(100, 0))?;
        self.decide_gives("level 1,000,000", &p_up_to(1_000_000), P_ROOM, 50, answer(100, 1))?;
        self.decide_gives("level 1,000,001", &p_up_to(1_000_001), P_ROOM, 50, answer(11, 0))?;
        self.decide_gives("n 6", &six, MOST_ROOM, 5, answer(100, 0))?;
        self.decide_gives("n 7", &seven, MOST_ROOM, 5, answer(2, 0))?;
        self.check_gives("n 7", &seven, &field(6, &[0]), 2)?;
        self.decide_gives("n 7, records of n 6", &six_called_seven, MOST_ROOM, 5, answer(2, 0))?;
        self.decide_gives("an empty file", &[], P_ROOM, 5, answer(1, 0))?;
        self.decide_gives("tag 7", &field(7, &[1, 1, 0, 0]), P_ROOM, 5, answer(1, 0))?;
        Ok(())
    }

    fn tables_of_p(&mut self) -> Result<(), Difference> {
        let (p, table, no_faces) = (p_file(), p_table_file(), field(6, &[0]));
        let words = examples::plant_p().words();
        let plant = Plant::from_words(&words).expect("P passes its questions");
        let wider = table_file(&plant, &examples::plant_p_wider());
        let mut narrow = examples::plant_p_table();
        narrow[16] = 3;
        let narrow = table_file(&plant, &narrow);
        self.check_gives("P's table", &p, &table, 100)?;
        self.check_gives("P's wider table", &p, &wider, 100)?;
        self.check_gives("P's table with x 3..8", &p, &narrow, 33)?;
        self.check_gives("P's table for the unknown P", &p_unknown_file(), &table, 34)?;
        self.check_gives("no faces for P", &p, &no_faces, 33)?;
        self.check_gives("no faces for P without a start", &p_without_start(), &no_faces, 100)?;
        self.check_gives("an empty table file", &p, &[], 35)?;
        self.check_gives("an empty model file", &[], &table, 1)
    }

    /// The largest models there are, with and without cuts: whole, short of one byte, and with bytes
    /// behind them.
    fn largest_model(&mut self) -> Result<(), Difference> {
        let whole = examples::large_grid(6, 3);
        let cut = examples::all_cut(whole.clone());
        for (draft, short_of_one) in [(whole, 7), (cut, 46)] {
            let largest = model_file(&draft.words());
            let mut longer = largest.clone();
            longer.push(4);
            let mut much_longer = largest.clone();
            much_longer.resize(200_000, 0);
            let shorter = &largest[..largest.len() - 1];
            let no_faces = field(6, &[0]);
            self.decide_gives("the largest model", &largest, MOST_ROOM, 3, answer(102, 3))?;
            self.check_gives("the largest model", &largest, &no_faces, 33)?;
            for (label, model, number) in [
                ("the largest model, short of one byte", shorter, short_of_one),
                ("the largest model and one byte", &longer, 8),
                ("the largest model and many bytes", &much_longer, 8),
            ] {
                self.decide_gives(label, model, MOST_ROOM, 3, answer(number, 0))?;
                self.check_gives(label, model, &no_faces, number)?;
            }
        }
        Ok(())
    }

    /// Models of about as many words as the library's calls on files hold at first, from some fewer
    /// to some more: whole, short of one byte, with one more, and with every word of the head at every
    /// edge.
    fn words_held(&mut self) -> Result<(), Difference> {
        for size in 500..=525 {
            let words = row_of_cells(size).words();
            assert_eq!(words.len(), size);
            let plant = Plant::from_words(&words).expect("a row of cells passes its questions");
            let whole = model_file(&words);
            let (_, buffer) = self.decide("a row of cells", &whole, MOST_ROOM, 1_000)?;
            let table = written_table(&plant, &buffer).to_vec();
            let longer = [&whole[..], &[4]].concat();
            let ends = [whole[..whole.len() - 1].to_vec(), longer, whole];
            let heads = (0..HEAD_WORDS).flat_map(|index| EDGES.map(|edge| (index, edge)));
            let others = heads.map(|(index, edge)| {
                let mut changed = words.clone();
                changed[index] = edge;
                file_of_words(&plant.sizes, &changed)
            });
            for model in ends.into_iter().chain(others) {
                self.decide("a row of cells, changed", &model, MOST_ROOM, 20)?;
                self.check("a row of cells, changed", &model, &table)?;
                self.counts.fixed += 2;
            }
        }
        Ok(())
    }

    /// Such tables, in decide and in both checks: the answer's, without its last face, short of one word, and
    /// with the last cell forbidden.
    fn tables_held(&mut self) -> Result<(), Difference> {
        for (n, cells, cuts, size, passes) in TABLES_HELD {
            let label = format!("{cells} cells of {n} variables, {cuts} cut");
            let mut draft = row_of_starts(n, cells, cuts);
            let words = draft.words();
            let plant = Plant::from_words(&words).expect("a row of cells passes its questions");
            assert_eq!(plant.table_words(), size);
            let buffer = self.decide_gives(&label, &model_file(&words), MOST_ROOM, 9, answer(100, passes))?;
            let table = parse_table(&plant, written_table(&plant, &buffer)).expect("the answer's table reads");
            self.checks_give(&label, &draft, &table, 100)?;
            let mut without_the_last = table.clone();
            without_the_last[size - plant.sizes.face_words()..].fill(0);
            self.checks_give(&label, &draft, &without_the_last, 33)?;
            let short = Input::of_model(&words).with_table(&table[..size - 1]);
            self.gives(&label, Call::Check, &short, &Lengths::default(), (20, 0))?;
            draft.forbidden = vec![(cells - 1, draft.locations[cells - 1].invariant.clone())];
            self.decide_gives(&label, &model_file(&draft.words()), MOST_ROOM, 9, answer(101, 0))?;
            self.checks_give(&label, &draft, &table, 34)?;
        }
        Ok(())
    }

    /// Source 000's examples and large plants, under every limit up to the answer, and their
    /// tables.
    fn source_000(&mut self) -> Result<(), Difference> {
        for (label, draft) in [
            ("figure 1", examples::figure_1()),
            ("section 3.4, whole", examples::whole_box((0, 2))),
            ("section 3.4, divided", examples::divided_box((0, 2))),
            ("section 3.4, first half", examples::divided_box((1, 2))),
            ("section 3.4, second half", examples::divided_box((0, 1))),
            ("two tanks", examples::two_tank(59)),
            ("64 locations, n 2", examples::large_grid(2, 6)),
            ("64 locations, n 3", examples::large_grid(3, 4)),
            ("64 locations, n 6", examples::large_grid(6, 3)),
            ("64 locations cut, n 2", examples::all_cut(examples::large_grid(2, 6))),
            ("64 locations cut, n 3", examples::all_cut(examples::large_grid(3, 4))),
            ("64 locations cut, n 6", examples::all_cut(examples::large_grid(6, 3))),
        ] {
            let words = draft.words();
            let plant = Plant::from_words(&words).expect("an example passes its questions");
            let model = model_file(&words);
            for limit in (0..20).chain([1_000]) {
                let (_, buffer) = self.decide(label, &model, MOST_ROOM, limit)?;
                self.check(label, &model, written_table(&plant, &buffer))?;
                self.counts.fixed += 2;
            }
        }
        Ok(())
    }

    /// The sample models, and their tables exchanged among each other.
    fn sample_models(&mut self) -> Result<(), Difference> {
        let mut tables = vec![field(6, &[0])];
        for (name, model) in samples::all() {
            let (number, buffer) = self.decide(name, &model, MOST_ROOM, 1_000)?;
            self.counts.fixed += 1;
            if number >> 32 >= 100 {
                let read = model_of_file(&model).expect("a model that is answered reads");
                tables.push(written_table(&read.plant(), &buffer).to_vec());
            }
        }
        for (name, model) in samples::all() {
            for table in &tables {
                self.check(name, &model, table)?;
                self.counts.fixed += 1;
            }
        }
        Ok(())
    }

    /// P's file and its table file at every length, and every bit of both flipped; the same of P cut and of a plant of
    /// edition 2.
    fn lengths_and_bits(&mut self) -> Result<(), Difference> {
        let ranged = (model_file(&set_to([2, 5]).words()), set_to_table_file());
        for (p, table) in [(p_file(), p_table_file()), (cut_p_file(), cut_p_table_file()), ranged] {
            for length in 0..p.len() {
                self.decide("a file ends early", &p[..length], MOST_ROOM, 9)?;
                self.check("a file ends early", &p[..length], &table)?;
                self.counts.fixed += 2;
            }
            for length in 0..table.len() {
                self.check("a table ends early", &p, &table[..length])?;
                self.counts.fixed += 1;
            }
            for bit in 0..8 * p.len() {
                let mut flipped = p.clone();
                flipped[bit / 8] ^= 1 << (bit % 8);
                self.decide("P with a bit flipped", &flipped, MOST_ROOM, 9)?;
                self.check("P with a bit flipped", &flipped, &table)?;
                self.counts.fixed += 2;
            }
            for bit in 0..8 * table.len() {
                let mut flipped = table.clone();
                flipped[bit / 8] ^= 1 << (bit % 8);
                self.check("P's table with a bit flipped", &p, &flipped)?;
                self.counts.fixed += 1;
            }
        }
        Ok(())
    }

    /// Every word of the water-level model at every edge, without cuts and with cuts in two of its four
    /// locations, and of a plant of edition 2.
    fn words_of_a_model(&mut self) -> Result<(), Difference> {
        for draft in [examples::water_level(20), examples::water_level_cut(), set_to([2, 5])] {
            let words = draft.words();
            let plant = Plant::from_words(&words).expect("an example passes its questions");
            let (_, buffer) = self.decide("a plant", &model_file(&words), MOST_ROOM, 1_000)?;
            let table = written_table(&plant, &buffer).to_vec();
            for index in 0..words.len() {
                for edge in EDGES {
                    let mut changed = words.clone();
                    changed[index] = edge;
                    let changed = file_of_words(&plant.sizes, &changed);
                    self.decide("a plant with another word", &changed, MOST_ROOM, 20)?;
                    self.check("a plant with another word", &changed, &table)?;
                    self.counts.fixed += 2;
                }
            }
        }
        Ok(())
    }

    /// Every word of P's table file at every edge, and of that of P cut.
    fn words_of_a_table(&mut self) -> Result<(), Difference> {
        for (p, table, faces, words) in [(p_file(), p_table_file(), 2, 6), (cut_p_file(), cut_p_table_file(), 3, 7)] {
            let places = (0..faces).flat_map(|face| (0..words).map(move |word| 10 + face * (3 + 4 * words) + 4 * word));
            for place in std::iter::once(3).chain(places) {
                for edge in EDGES {
                    let mut changed = table.clone();
                    changed[place..place + 4].copy_from_slice(&edge.to_be_bytes());
                    self.check("P's table with another word", &p, &changed)?;
                    self.counts.fixed += 1;
                }
            }
        }
        Ok(())
    }
}
