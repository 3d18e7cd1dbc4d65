//! The fixed cases of start boxes that cross the wall (document 02, T-02), of all calls: question 13 at its
//! edges and in its order, and answers worked out by hand.

use crate::c_calls::exports::Call;
use crate::c_calls::slices::{Input, Lengths};
use crate::fixed::documents::answer;
use crate::held::compare::{Comparison, Difference, MOST_ROOM};
use crate::inputs::draft::Draft;
use crate::inputs::examples;
use crate::reference::files::{field, file_of_words};
use crate::reference::model::{Plant, Sizes, HEAD_WORDS, LEVEL, RATE};
use crate::reference::quote::Quote;

const LIMIT: u32 = 9;

/// Start flags and start boxes of P, x and y 0..10, and the number of question 13; 100 if it is yes.
pub const STARTS_OF_P: [(i32, [i32; 4], u32); 40] = [
    (1, [0, 0, 2, 5], 100),
    (1, [0, 10, 0, 10], 100),
    (1, [0, 0, 0, 0], 100),
    // Out on one side, on both, onto the wall alone, behind it.
    (1, [-1, 0, 2, 5], 100),
    (1, [0, 0, 2, 11], 100),
    (1, [-1, 11, -1, 11], 100),
    (1, [-3, 0, 2, 5], 100),
    (1, [0, 0, 10, 15], 100),
    (1, [-2, -1, 2, 5], 100),
    (1, [0, 0, 11, 15], 100),
    (1, [11, 12, 11, 15], 100),
    (1, [-7, 17, 11, 11], 100),
    // The level range.
    (1, [-LEVEL, LEVEL, -LEVEL, LEVEL], 100),
    (1, [-LEVEL, -LEVEL, 2, 5], 100),
    (1, [0, 0, LEVEL, LEVEL], 100),
    (1, [-LEVEL - 1, 0, 2, 5], 13),
    (1, [0, 0, -LEVEL - 1, 5], 13),
    (1, [0, LEVEL + 1, 2, 5], 13),
    (1, [0, 0, 2, LEVEL + 1], 13),
    (1, [-LEVEL - 1, -LEVEL - 1, 2, 5], 13),
    (1, [0, 0, LEVEL + 1, LEVEL + 1], 13),
    (1, [i32::MIN, i32::MAX, 2, 5], 13),
    (1, [0, 0, i32::MIN, i32::MAX], 13),
    // The order, inside, across the wall and behind it.
    (1, [1, 0, 2, 5], 13),
    (1, [0, 0, 5, 2], 13),
    (1, [0, 0, 12, 2], 13),
    (1, [0, 0, 13, 12], 13),
    (1, [-1, -2, 2, 5], 13),
    (1, [LEVEL, -LEVEL, 2, 5], 13),
    // Behind the wall in x, and bad in y all the same.
    (1, [11, 12, 5, 2], 13),
    (1, [11, 12, 2, LEVEL + 1], 13),
    // Flag 0 and zeros.
    (0, [0, 0, 0, 0], 100),
    (0, [0, 0, 2, 5], 13),
    (0, [-1, 0, 0, 0], 13),
    (0, [0, 0, 0, 1], 13),
    // Other flags.
    (2, [0, 0, 2, 5], 13),
    (-1, [0, 0, 2, 5], 13),
    (2, [0, 0, 0, 0], 13),
    (i32::MIN, [0, 0, 11, 15], 13),
    (i32::MAX, [0, 0, 0, 0], 13),
];

/// Places of words, and what stands there then.
type Changes = Vec<(usize, i32)>;

/// Changes to the words of the water level's four locations of 13 words each (invariant, rates, flag, start
/// box) and of its switches, and the number of the first that is asked.
fn in_order() -> Vec<(&'static str, Changes, u32)> {
    let at = |location: usize, word: usize| HEAD_WORDS + 13 * location + word;
    let (bad_invariant, bad_rates) = (LEVEL + 1, RATE + 1);
    let bad_start = |location: usize| (at(location, 9), LEVEL + 1);
    vec![
        ("11 and 13 of one location", vec![(at(0, 0), bad_invariant), bad_start(0)], 11),
        ("12 and 13 of one location", vec![(at(0, 4), bad_rates), bad_start(0)], 12),
        ("11, 12 and 13 of one location", vec![(at(0, 0), bad_invariant), (at(0, 4), bad_rates), bad_start(0)], 11),
        ("13, and 11 of the next", vec![bad_start(0), (at(1, 0), bad_invariant)], 13),
        ("13, and 12 of the next", vec![bad_start(0), (at(1, 4), bad_rates)], 13),
        ("13, and 11 of the location before", vec![bad_start(1), (at(0, 0), bad_invariant)], 11),
        ("13, and 12 of the last", vec![bad_start(2), (at(3, 4), bad_rates)], 13),
        ("13 of the last, and 14", vec![bad_start(3), (at(4, 0), -1)], 13),
        ("13 of the last, and 3", vec![bad_start(3), (1, 65)], 3),
        ("a start box across the wall, and 11 of the next", vec![(at(0, 10), 101), (at(1, 0), bad_invariant)], 11),
        ("a start box behind the wall, and 14", vec![(at(0, 9), 101), (at(0, 10), 105), (at(4, 0), -1)], 14),
    ]
}

/// A plant with its answer: code, passes, and the records of its table file.
pub(crate) struct Answered {
    label: &'static str,
    draft: Draft,
    code: u32,
    passes: u32,
    records: Vec<Vec<i32>>,
}

impl Answered {
    fn table_file(&self) -> Vec<u8> {
        let mut table = field(6, &[self.records.len() as i32]);
        self.records.iter().for_each(|record| table.extend(field(5, record)));
        table
    }
}

pub(crate) fn answered_as(label: &'static str, draft: Draft, code: u32, passes: u32, records: &[&[i32]]) -> Answered {
    Answered { label, draft, code, passes, records: records.iter().map(|record| record.to_vec()).collect() }
}

/// P from another start box, with P's forbidden box: safe after one pass, or at once if nothing is reached.
fn p_from(label: &'static str, start: [i32; 4], records: &[&[i32]]) -> Answered {
    answered_as(label, examples::plant_p_from(start), 100, !records.is_empty() as u32, records)
}

/// Plants of one location worked out by hand.
fn answered() -> Vec<Answered> {
    let all = || examples::plant_p_from([-LEVEL, LEVEL, -LEVEL, LEVEL]);
    let unguarded = Draft { forbidden: vec![], ..all() };
    let mut flat = examples::plant_p_from([0, 0, 3, 8]);
    flat.locations[0].invariant = vec![0, 10, 5, 5];
    let whole: [&[i32]; 4] =
        [&[0, 0, 0, 0, 0, 10], &[0, 1, 10, 10, 0, 10], &[0, 2, 0, 10, 0, 0], &[0, 3, 0, 10, 10, 10]];
    let falling: [&[i32]; 4] =
        [&[0, 0, 0, 0, 5, 10], &[0, 1, 10, 10, 0, 0], &[0, 2, 2, 10, 0, 0], &[0, 3, 0, 0, 10, 10]];
    // The whole box would be on y = 5 after 0 to 2, with x 0..2.
    let on_the_line: [&[i32]; 3] = [&[0, 0, 0, 0, 5, 5], &[0, 2, 0, 0, 5, 5], &[0, 3, 0, 0, 5, 5]];
    vec![
        p_from("y 2..15", [0, 0, 2, 15], &[&[0, 0, 0, 0, 2, 10], &[0, 3, 0, 8, 10, 10]]),
        p_from("y 2 to the last level", [0, 0, 2, LEVEL], &[&[0, 0, 0, 0, 2, 10], &[0, 3, 0, 8, 10, 10]]),
        // Of x only the wall is left: P's own start part, and P's table.
        p_from("x -5..0, y 2..5", [-5, 0, 2, 5], &[&[0, 0, 0, 0, 2, 5], &[0, 3, 2, 8, 10, 10]]),
        p_from("y 10..15", [0, 0, 10, 15], &[&[0, 0, 0, 0, 10, 10], &[0, 3, 0, 0, 10, 10]]),
        p_from("y 11..15", [0, 0, 11, 15], &[]),
        // The whole box would come to x = 0 after 1 to 5, with y 3..10: behind the wall it is no start.
        p_from("x -5..-1, y 2..5", [-5, -1, 2, 5], &[]),
        p_from("x -5..-1, y 11..15", [-5, -1, 11, 15], &[]),
        // Falling, the whole boxes would come to what is forbidden.
        answered_as("P falling, y 5..15", examples::plant_p_falling_short(), 100, 1, &falling),
        answered_as("P falling, y 11..15", examples::plant_p_behind(10), 100, 0, &[]),
        answered_as("P falling, y 11..15 under walls at 15", examples::plant_p_behind(15), 101, 0, &[]),
        answered_as("all levels", all(), 101, 0, &[]),
        answered_as("all levels, nothing forbidden", unguarded, 100, 1, &whole),
        answered_as("y 3..8 in an invariant of zero width", flat, 100, 1, &on_the_line),
    ]
}

/// The same with the location cut at x = 5.
fn answered_with_a_cut() -> Vec<Answered> {
    // x 0..8 on y = 10 in two pieces.
    let in_pieces: [&[i32]; 3] = [&[0, 0, 0, 0, 0, 2, 10], &[0, 3, 0, 0, 5, 10, 10], &[0, 3, 1, 5, 8, 10, 10]];
    vec![
        answered_as("P cut, y 2..15", cut(examples::plant_p_from([0, 0, 2, 15])), 100, 1, &in_pieces),
        answered_as("P cut and falling, y 11..15", cut(examples::plant_p_behind(10)), 100, 0, &[]),
    ]
}

/// A plant of one location cut at x = 5.
fn cut(draft: Draft) -> Draft {
    Draft { cuts: vec![(0, 0, 5)], ..draft }
}

/// A plant and a table, and the checker's number.
pub(crate) type OfTable = (&'static str, Draft, Vec<i32>, u32);

fn tables() -> Vec<OfTable> {
    let (p, of_p, wider) = (examples::plant_p_from, examples::plant_p_table, examples::plant_p_wider);
    let none = || vec![0; 20];
    let face_3 = examples::plant_p_starting_forbidden_table;
    vec![
        ("P's table, y 2..15", p([0, 0, 2, 15]), of_p(), 33),
        ("the wider table, y 2..15", p([0, 0, 2, 15]), wider(), 100),
        ("no faces, y 2..15", p([0, 0, 2, 15]), none(), 33),
        ("P's table, x -5..0", p([-5, 0, 2, 5]), of_p(), 100),
        ("the wider table, x -5..0", p([-5, 0, 2, 5]), wider(), 100),
        ("P's table, y 10..15", p([0, 0, 10, 15]), of_p(), 33),
        ("no faces, y 10..15", p([0, 0, 10, 15]), none(), 33),
        ("P's table, y 11..15", p([0, 0, 11, 15]), of_p(), 100),
        ("no faces, y 11..15", p([0, 0, 11, 15]), none(), 100),
        ("no faces, P falling", examples::plant_p_behind(10), none(), 100),
        ("no faces, P falling, walls at 15", examples::plant_p_behind(15), none(), 33),
        ("face 3 alone, x 3, y 4..15", p([3, 3, 4, 15]), face_3(), 100),
        ("the same, only the start part touches", examples::plant_p_starting_forbidden(), face_3(), 34),
    ]
}

/// The same with the location cut at x = 5: 8 pieces of 5 words, the last two of them on y = 10.
fn tables_of_pieces() -> Vec<OfTable> {
    let with = |first: [i32; 5], second: [i32; 5]| [&[0; 30][..], &first, &second].concat();
    let both = || with([1, 3, 5, 10, 10], [1, 5, 9, 10, 10]);
    let p = |start| cut(examples::plant_p_from(start));
    vec![
        ("P cut's table, y 2..15", p([0, 0, 2, 15]), examples::plant_p_cut_table(), 33),
        ("face 3 cut, x 3, y 4..15", p([3, 3, 4, 15]), both(), 100),
        ("its first piece alone", p([3, 3, 4, 15]), with([1, 3, 5, 10, 10], [0; 5]), 33),
        ("both, only the start part touches", cut(examples::plant_p_starting_forbidden()), both(), 34),
    ]
}

pub(crate) fn unwanted(label: &str, wanted: impl std::fmt::Debug, found: impl std::fmt::Debug) -> Difference {
    Difference { text: format!("{label}: wanted {wanted:?}, both give {found:?}") }
}

impl Comparison {
    pub(crate) fn fixed_starts(&mut self) -> Result<(), Difference> {
        let sizes = Sizes { n: 2, locations: 1, switches: 0, forbidden: 1 };
        for (flag, start, number) in STARTS_OF_P {
            let label = format!("P with flag {flag} and {start:?}");
            let words = examples::plant_p_with_start(flag, start);
            let file = file_of_words(&sizes, &words);
            // P's ceiling does not look at starts.
            self.asked_of_words(&label, &words, number, 44)?;
            self.asked_of_file(&label, &file, words.len(), number)?;
        }
        self.asked_in_order()?;
        for case in answered().into_iter().chain(answered_with_a_cut()) {
            self.answered_by_hand(&case)?;
        }
        self.start_part_across_a_cut()?;
        for (label, draft, table, number) in tables().into_iter().chain(tables_of_pieces()) {
            self.checks_give(label, &draft, &table, number)?;
        }
        self.one_recipe()
    }

    /// The model's questions in every call on words; a model that passes them has this ceiling, in its quote too, and
    /// gets 20 or 40 without buffers. A quote is all zeros on a refusal.
    pub(crate) fn asked_of_words(
        &mut self,
        label: &str,
        words: &[i32],
        number: u32,
        ceiling: u64,
    ) -> Result<(), Difference> {
        let input = Input::of_model(words).under(LIMIT);
        let of_ceiling = (number, if number == 100 { ceiling } else { 0 });
        self.gives(label, Call::Ceiling, &input, &Lengths::default(), of_ceiling)?;
        let quote = self.gives(label, Call::Quote, &input, &Lengths::default(), (number, 0))?.quote();
        if quote.ceiling != of_ceiling.1 || (number != 100 && quote != Quote::default()) {
            return Err(unwanted(label, of_ceiling, quote));
        }
        for call in Call::on_words().filter(|call| call.of_a_model_alone() != 100) {
            let wanted = if number == 100 { call.of_a_model_alone() } else { number };
            self.gives(label, call, &input, &Lengths::default(), (wanted, 0))?;
        }
        Ok(())
    }

    /// A question of records in every call on files. A refusal zeroes the word buffer that is read into.
    pub(crate) fn asked_of_file(
        &mut self,
        label: &str,
        file: &[u8],
        words: usize,
        number: u32,
    ) -> Result<(), Difference> {
        let (decided, _) = self.decide(label, file, MOST_ROOM, LIMIT)?;
        let checked = self.check(label, file, &field(6, &[0]))?;
        self.counts.fixed += 2;
        let (input, lengths) = (Input::of_file(file), Lengths::of_words(words));
        let read = (number, if number == 100 { words as u64 } else { 0 });
        let left = self.gives(label, Call::ReadModel, &input, &lengths, read)?;
        let refused = number != 100;
        if refused != (decided >> 32 < 100)
            || refused && (decided, checked) != (answer(number as u64, 0), number as u64)
        {
            return Err(unwanted(label, number, (decided, checked)));
        }
        if refused && left.words().iter().any(|&word| word != 0) {
            return Err(unwanted(label, "a word buffer of zeros", left.words()));
        }
        Ok(())
    }

    /// 13 comes after 11 and 12 of its location and before the next location's.
    fn asked_in_order(&mut self) -> Result<(), Difference> {
        let model = examples::water_level(20).words();
        let sizes = Plant::from_words(&model).expect("an example passes its questions").sizes;
        for (label, changes, number) in in_order() {
            let mut words = model.clone();
            changes.iter().for_each(|&(place, word)| words[place] = word);
            self.asked_of_words(label, &words, number, 0)?;
            let file = file_of_words(&sizes, &words);
            self.decide_gives(label, &file, MOST_ROOM, LIMIT, answer(number as u64, 0))?;
            self.check_gives(label, &file, &field(6, &[0]), number as u64)?;
        }
        Ok(())
    }

    /// A plant's answer, its table, and what check says of that table, in every call.
    pub(crate) fn answered_by_hand(&mut self, case: &Answered) -> Result<(), Difference> {
        let (label, code, passes) = (case.label, case.code, case.passes);
        let words = case.draft.words();
        let plant = Plant::from_words(&words).expect("an example passes its questions");
        let table = case.table_file();
        // The table of an unknown answer here is table 0, which a pass changes.
        let checked = if code == 100 { 100 } else { 33 };
        self.decided_by_hand(case, &plant, &table)?;
        self.check_gives(label, &file_of_words(&plant.sizes, &words), &table, checked)?;
        let size = plant.table_words();
        let lengths = Lengths::of_table(size);
        let input = Input::of_model(&words).with_file(&table).under(LIMIT);
        let read = self.gives(label, Call::ReadTable, &input, &lengths, (100, size as u64))?.words().to_vec();
        for call in [Call::Analyse, Call::Desk] {
            let left = self.gives(label, call, &input, &lengths, (code, passes as u64))?;
            if left.words() != read {
                return Err(unwanted(label, read, left.words()));
            }
        }
        self.gives(label, Call::Check, &input.with_table(&read), &lengths, (checked as u32, 0))?;
        Ok(())
    }

    /// decide, under a limit that is enough, and under 0: the same answer where no pass is made.
    fn decided_by_hand(&mut self, case: &Answered, plant: &Plant, table: &[u8]) -> Result<(), Difference> {
        let (file, room) = (file_of_words(&plant.sizes, plant.words()), plant.table_file_room());
        let buffer = self.decide_gives(case.label, &file, room, LIMIT, answer(case.code as u64, case.passes as u64))?;
        if buffer[..table.len()] != *table {
            return Err(unwanted(case.label, table, &buffer[..table.len()]));
        }
        let at_once = if case.passes == 0 { case.code as u64 } else { 102 };
        self.decide_gives(case.label, &file, room, 0, answer(at_once, 0))?;
        Ok(())
    }

    /// A start part on both sides of its location's cut.
    fn start_part_across_a_cut(&mut self) -> Result<(), Difference> {
        let label = "a start part across a cut";
        let words = examples::start_part_across_a_cut().words();
        let plant = Plant::from_words(&words).expect("a start box across walls passes its questions");
        let size = plant.table_words();
        let lengths = Lengths::of_table(size);
        let input = Input::of_model(&words).under(1);
        let left = self.call(label, Call::Analyse, &input, &lengths, Default::default())?;
        self.counts.fixed += 1;
        let (wanted, found) = ([1, 20, 20, 7, 10, 27, 35], &left.words()[plant.face_places(0, 1)][..7]);
        if found != wanted {
            return Err(unwanted(label, wanted, found));
        }
        Ok(())
    }

    /// The three tanks with one recipe's start behind a wall: of two start boxes one is a part, and the plant
    /// is safe without a cut.
    fn one_recipe(&mut self) -> Result<(), Difference> {
        let mut draft = examples::three_tanks(false);
        draft.locations[1].start = Some(vec![0, 0, 11, 12, 1, 2]);
        let records: [&[i32]; 4] = [
            &[0, 0, 0, 0, 1, 2, 6, 7],
            &[0, 1, 10, 10, 1, 2, 6, 7],
            &[2, 0, 0, 0, 1, 4, 6, 9],
            &[2, 1, 10, 10, 1, 2, 6, 7],
        ];
        self.answered_by_hand(&answered_as("one recipe", draft, 100, 3, &records))
    }
}
