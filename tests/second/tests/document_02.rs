//! Cases of document 02's requests.

use second::c_calls::exports::{answer, Call};
use second::c_calls::slices::{Input, Lent, Numbers, Slice};
use second::fixed::quotes::quotes;
use second::fixed::resets::{short_lists, NO_EDITION};
use second::fixed::starts::STARTS_OF_P;
use second::fixed::written::{files, lengths};
use second::held::simulate::{may_move, may_start, Configuration, Move};
use second::inputs::damage::{
    damage_bytes, damaged_ranges, damaged_starts, edited_model_file, RANGE_DAMAGE, START_DAMAGE,
};
use second::inputs::draft::{Draft, LocationDraft};
use second::inputs::examples::*;
use second::inputs::generate::{extreme_model, random_model};
use second::inputs::random::Random;
use second::reference::analysis::Answer;
use second::reference::before;
use second::reference::calls::{self, Buffers};
use second::reference::ceiling;
use second::reference::desk::Desk;
use second::reference::files::{field, file_of_words, model_file, model_file_bytes};
use second::reference::host::MOST_MODEL_WORDS;
use second::reference::listing::listing;
use second::reference::model::{words_per_location, Cut, Edition, Location, Plant, EDITION_AT, HEAD_WORDS, MAX_BOX};
use second::reference::plain;
use second::reference::quote::{by_widths, Quote, Taken};
use second::reference::steps::wall_step;

/// Bad words of plant P: place, word, and the number by which the model's questions refuse it.
const BAD_WORDS_OF_P: [(usize, i32, u32); 9] = [
    (0, 7, 2),
    (1, 65, 3),
    (2, -1, 4),
    (EDITION_AT, 3, 43),
    (P_LOCATION, 11, 11),
    (P_LOCATION + 4, 2, 12),
    (P_START_FLAG, 2, 13),
    (P_FORBIDDEN, 1, 19),
    (P_CUT, 0, 46),
];

fn buffers(words: usize) -> Buffers {
    Buffers { table: vec![-7; words], work: vec![-9; words] }
}

/// What value and quote hold before a call.
const OLD_VALUE: u64 = 3;
const OLD_QUOTE: Quote = Quote { words: 11, bytes: 12, ceiling: 13 };

/// All that any call is lent, with this byte buffer.
fn all_lent(file: &[u8]) -> Lent {
    Lent::all(0, |slice| match slice {
        Slice::FileRoom => Numbers::Bytes(file.into()),
        Slice::Jobs => Numbers::Counters([1].into()),
        Slice::Passes => Numbers::Counters([2].into()),
        Slice::Value => Numbers::Values([OLD_VALUE].into()),
        Slice::Quote => Numbers::Values(OLD_QUOTE.values().into()),
        _ => Numbers::Words([4].into()),
    })
}

/// A call on model words that writes neither words nor counters, though it is lent all: its number, value and quote.
fn answered(call: Call, model: &[i32], file: &mut [u8]) -> (u32, u64, Quote) {
    let mut lent = all_lent(file);
    let number = answer(call, &Input::of_model(model), &mut lent);
    assert_eq!([Slice::Words, Slice::Work].map(|slice| lent.read::<i32>(slice)), [&[4], &[4]]);
    assert_eq!(lent.desk(), Some(Desk { jobs: 1, passes: 2 }));
    file.copy_from_slice(lent.read(Slice::FileRoom));
    (number, *lent.value(), lent.quote().expect("the quote is lent"))
}

/// T-01: files worked out by hand, byte by byte. Words behind a model's are not part of it; bytes behind its file
/// stand; 40 changes nothing.
#[test]
fn model_files_by_hand() {
    for (label, words, file) in files() {
        let write = |list: &[i32], length: usize| calls::write_model(list, vec![7; length]);
        let longer = [&words[..], &[1, -1, 0]].concat();
        for list in [&words, &longer] {
            assert_eq!(write(list, file.len()), (Ok(file.len()), file.clone()), "{label}");
            assert_eq!(write(list, file.len() + 2), (Ok(file.len()), [&file[..], &[7, 7]].concat()), "{label}");
            for length in [0, 1, file.len() - 1] {
                assert_eq!(write(list, length), (Err(40), vec![7; length]), "{label}");
            }
        }
        assert_eq!(calls::read_model(&file, vec![3; words.len()]), (Ok(words.len()), words), "{label}");
    }
}

/// T-01: question 40 asks for this model's own file, whose length is worked out by hand, and not for the longest.
#[test]
fn lengths_of_model_files() {
    for (label, draft, bytes) in lengths() {
        let words = draft.words();
        assert_eq!(model_file_bytes(&Plant::from_words(&words).unwrap()), bytes, "{label}");
        assert_eq!(calls::write_model(&words, vec![7; bytes]), (Ok(bytes), model_file(&words)), "{label}");
        assert_eq!(calls::write_model(&words, vec![7; bytes - 1]), (Err(40), vec![7; bytes - 1]), "{label}");
    }
}

/// T-01: the value is written in every case, 0 on a refusal, and nothing is but the file. The model's questions come
/// before 40.
#[test]
fn model_files_are_asked_for_last() {
    let p = plant_p().words();
    let written = |model: &[i32], length: usize| {
        let mut file = vec![7; length];
        let (number, value, quote) = answered(Call::WriteModel, model, &mut file);
        assert!(number == 100 || file == vec![7; length]);
        assert_eq!(quote, OLD_QUOTE);
        (number, value)
    };
    assert_eq!([97, 98, 29_907].map(|length| written(&p, length)), [(100, 97); 3]);
    assert_eq!([0, 1, 96].map(|length| written(&p, length)), [(40, 0); 3]);
    for length in 0..p.len() {
        assert_eq!([0, 97].map(|room| written(&p[..length], room)), [(5, 0); 2]);
    }
    for (place, word, number) in BAD_WORDS_OF_P {
        let mut words = p.clone();
        words[place] = word;
        assert_eq!([0, 96, 97, 200].map(|room| written(&words, room)), [(number, 0); 4]);
    }
    // Cut, P's file is longer by a field; in edition 2 it is as long.
    let (cut, second) = (plant_p_cut().words(), Draft { edition: Edition::Two, ..plant_p() }.words());
    assert_eq!([97, 111, 112].map(|room| written(&cut, room)), [(40, 0), (40, 0), (100, 112)]);
    assert_eq!([96, 97].map(|room| written(&second, room)), [(40, 0), (100, 97)]);
}

/// T-01: the reader gives the same words back, and a file that reads is written again with the same bytes, a damaged
/// one too.
#[test]
fn model_files_there_and_back() {
    let mut random = Random::new(1);
    // Damaged files that read, and how many of them have cuts.
    let (mut damaged, mut cuts) = (0, 0);
    for _ in 0..3_000 {
        let words = random_model(&mut random).words();
        let plant = Plant::from_words(&words).unwrap();
        let (written, file) = calls::write_model(&words, vec![7; model_file_bytes(&plant)]);
        assert_eq!(written, Ok(file.len()));
        assert_eq!(calls::read_model(&file, vec![3; words.len()]), (Ok(words.len()), words.clone()));
        let mut bytes = file;
        if random.chance(1, 2) {
            bytes = edited_model_file(&mut random, &plant);
        } else {
            damage_bytes(&mut random, &mut bytes);
        }
        let (read, words) = calls::read_model(&bytes, vec![3; words.len()]);
        if read.is_ok() {
            assert_eq!(calls::write_model(&words, vec![7; bytes.len()]), (Ok(bytes.len()), bytes));
            damaged += 1;
            cuts += Plant::from_words(&words).unwrap().any_cut() as u64;
        }
    }
    assert!(damaged > 300 && cuts > 150, "{damaged}, {cuts}");
}

/// T-02: question 13 asks for flag, order, range, and zeros under flag 0.
#[test]
fn start_boxes_in_order_and_range() {
    for (flag, start, number) in STARTS_OF_P {
        let refusal = (number != 100).then_some(number);
        assert_eq!(calls::ceiling(&plant_p_with_start(flag, start)).err(), refusal, "{flag}, {start:?}");
    }
}

/// T-02: 13 is asked in its place, after 11 and 12, and a file refused by it zeroes the word buffer.
#[test]
fn start_boxes_are_asked_in_their_place() {
    let number = |changes: &[(usize, i32)]| {
        let mut words = water_level(20).words();
        changes.iter().for_each(|&(place, word)| words[place] = word);
        calls::ceiling(&words).err()
    };
    // Of each location 4 words of the invariant, 4 of the rates, the flag, 4 of the start box.
    let at = |location: usize, word: usize| HEAD_WORDS + 13 * location + word;
    let (out_of_order, behind) = ((at(0, 9), 200), [(at(0, 9), 200), (at(0, 10), 300)]);
    assert_eq!(number(&[out_of_order]), Some(13));
    assert_eq!(number(&[out_of_order, (at(0, 0), 1_000_001)]), Some(11));
    assert_eq!(number(&[out_of_order, (at(0, 4), 1_001)]), Some(12));
    assert_eq!(number(&[out_of_order, (at(1, 0), 1_000_001)]), Some(13));
    assert_eq!(number(&behind), None);
    assert_eq!(number(&[behind[0], behind[1], (at(1, 0), 1_000_001)]), Some(11));
    let mut bad = plant_p_from([0, 0, 2, 1_000_001]);
    let read = |words: &[i32]| calls::read_model(&model_file(words), vec![3; P_WORDS + 2]);
    assert_eq!(read(&bad.words()), (Err(13), vec![0; P_WORDS + 2]));
    bad.locations[0].start = Some(vec![0, 0, 2, 1_000_000]);
    let words = bad.words();
    assert_eq!(read(&words), (Ok(P_WORDS), [&words[..], &[3, 3]].concat()));
}

/// T-02: what each kind of damage to a start box is refused by; of random models, and of P with a start box
/// far behind the low walls or the high ones.
#[test]
fn damaged_start_boxes() {
    let mut random = Random::new(21);
    let mut seen = [0; START_DAMAGE.len()];
    for turn in 0..6_000 {
        let words = match turn % 4 {
            0 => plant_p_from([-5, -3, -5, -3]).words(),
            1 => plant_p_from([13, 15, 13, 15]).words(),
            _ => random_model(&mut random).words(),
        };
        let (damaged, kind) = damaged_starts(&mut random, &Plant::from_words(&words).unwrap());
        assert_eq!(calls::ceiling(&damaged).err(), START_DAMAGE[kind].1, "{}", START_DAMAGE[kind].0);
        seen[kind] += 1;
    }
    assert!(seen.iter().all(|&count| count > 100), "{seen:?}");
}

/// T-02: P from start boxes that cross the wall y = 10, only meet it, or lie behind it.
#[test]
fn p_from_across_the_wall() {
    let text = |start| listing(&model_file(&plant_p_from(start).words()));
    let part = |start: [i32; 4]| {
        let words = plant_p_from(start).words();
        let part = Plant::from_words(&words).unwrap().location(0).start_part();
        part.map(|part| part[..4].to_vec())
    };
    assert_eq!(part([0, 0, 2, 15]), Some(vec![0, 0, 2, 10]));
    // On x = 0 the start part itself; on y = 10 after 0 to 8, with x 0..8.
    assert_eq!(text([0, 0, 2, 15]), "safe 1 2\n0 0 0 0 2 10\n0 3 0 8 10 10\n");
    assert_eq!(text([0, 0, 2, 1_000_000]), text([0, 0, 2, 15]));
    assert_eq!(part([0, 0, 10, 15]), Some(vec![0, 0, 10, 10]));
    assert_eq!(text([0, 0, 10, 15]), "safe 1 2\n0 0 0 0 10 10\n0 3 0 0 10 10\n");
    assert_eq!(part([0, 0, 11, 15]), None);
    assert_eq!(text([0, 0, 11, 15]), "safe 0 0\n");
    // Of x -5..0 the wall x = 0 is left: P itself. Of x -5..-1 nothing.
    assert_eq!(text([-5, 0, 2, 5]), "safe 1 2\n0 0 0 0 2 5\n0 3 2 8 10 10\n");
    assert_eq!(text([-5, -1, 2, 5]), "safe 0 0\n");
    // Out on both sides everywhere: the invariant.
    assert_eq!(part([-1_000_000, 1_000_000, -1_000_000, 1_000_000]), Some(vec![0, 10, 0, 10]));
    assert_eq!(text([-1_000_000, 1_000_000, -1_000_000, 1_000_000]), "unknown 0 0\n");
    assert_eq!(part([-1, 11, -1, 11]), Some(vec![0, 10, 0, 10]));
}

/// T-02: a start box behind the wall is none, though its rates lead back in: safe at once, and the table
/// without faces is accepted. Under a wall at y = 15 the same box is a start, and touches.
#[test]
fn no_start_behind_the_wall() {
    let words = plant_p_behind(10).words();
    let (outcome, after) = calls::analysis(&words, 0, buffers(20));
    assert_eq!((outcome, after.table), (Ok((Answer::Safe, 0)), vec![0; 20]));
    assert_eq!(calls::checker(&words, &[0; 20]), Ok(()));
    assert_eq!(calls::check(&model_file(&words), &field(6, &[0])), 100);
    let words = plant_p_behind(15).words();
    assert_eq!(calls::analysis(&words, 0, buffers(20)).0, Ok((Answer::Unknown, 0)));
    assert_eq!(calls::checker(&words, &[0; 20]), Err(33));
}

/// T-02: the checker holds a table to the start part.
#[test]
fn tables_are_held_to_start_parts() {
    let number = |start, table: &[i32]| calls::checker(&plant_p_from(start).words(), table).err();
    assert_eq!(number([0, 0, 2, 15], &plant_p_wider()), None);
    assert_eq!(number([0, 0, 2, 15], &plant_p_table()), Some(33));
    assert_eq!(number([-5, 0, 2, 5], &plant_p_table()), None);
    assert_eq!(number([0, 0, 11, 15], &plant_p_table()), None);
    // Of all parts only the start part touches: with P's own forbidden box the table is accepted.
    let (touched, table) = (plant_p_starting_forbidden(), plant_p_starting_forbidden_table());
    assert_eq!(calls::checker(&touched.words(), &table), Err(34));
    assert_eq!(number([3, 3, 4, 15], &table), None);
}

/// T-02: what lies behind the wall touches nothing and adds nothing to a table.
#[test]
fn what_is_behind_the_wall_is_no_part() {
    let words = plant_p_falling_short().words();
    let file = model_file(&words);
    assert_eq!(listing(&file), "safe 1 4\n0 0 0 0 5 10\n0 1 10 10 0 0\n0 2 2 10 0 0\n0 3 0 0 10 10\n");
    let mut table = vec![1, 0, 0, 5, 10, 1, 10, 10, 0, 0, 1, 2, 10, 0, 0, 1, 0, 0, 10, 10];
    assert_eq!(calls::checker(&words, &table), Ok(()));
    // Face 1 with y 0..5, as it would be from the whole box, touches.
    table[9] = 5;
    assert_eq!(calls::checker(&words, &table), Err(34));
}

/// T-02: a run starts in the start box and in the invariant.
#[test]
fn runs_start_in_both() {
    let words = plant_p_from([-3, 0, 2, 15]).words();
    let plant = Plant::from_words(&words).unwrap();
    let may = |denominator: i64, x: i64, y: i64| {
        may_start(&plant, denominator, &Configuration { location: 0, levels: vec![x, y] })
    };
    assert!(may(1, 0, 2) && may(1, 0, 10) && may(3, 0, 30) && may(2, 0, 5));
    assert!(!may(1, 0, 1) && !may(1, 0, 11) && !may(3, 0, 31) && !may(1, -1, 5) && !may(2, -1, 5) && !may(1, 1, 5));
}

/// T-02 and T-12: the start part of a start box that crosses the wall, on both sides of its location's cut.
#[test]
fn a_crossing_start_part_across_a_cut() {
    let words = start_part_across_a_cut().words();
    let plant = Plant::from_words(&words).unwrap();
    let (outcome, after) = calls::analysis(&words, 1, buffers(plant.table_words()));
    assert!(outcome.is_ok());
    assert_eq!(after.table[plant.face_places(0, 1)][..7], [1, 20, 20, 7, 10, 27, 35]);
}

/// T-04: the six sizes of document 01, and the one for seven variables.
#[test]
fn words_per_location_of_one_to_seven_variables() {
    let sizes: Vec<usize> = (1..=7).map(words_per_location).collect();
    assert_eq!(sizes, [6, 20, 42, 72, 110, 156, 210]);
}

/// T-04: the limits remain.
#[test]
fn seven_variables_are_refused() {
    let seven = at_rest(7).words();
    assert_eq!(calls::ceiling(&seven), Err(2));
    assert_eq!(calls::checker(&seven, &[0; 210]), Err(2));
}

/// A part with its rates, in an invariant of 0 to a level for every variable.
struct Step {
    part: Vec<i32>,
    rates: Vec<i32>,
    invariant: Vec<i32>,
}

impl Step {
    fn new(part: &[[i32; 2]], rates: &[[i32; 2]], high: i32) -> Step {
        Step { part: part.concat(), rates: rates.concat(), invariant: [0, high].repeat(part.len()) }
    }

    /// The wall step, which the plain restatement must give too.
    fn now(&self, d: usize, b: i32) -> Option<Vec<i32>> {
        let (n, mut out) = (self.part.len() / 2, [0; MAX_BOX]);
        let found = wall_step(n, &self.part, &self.rates, &self.invariant, d, b, &mut out);
        let found = found.then(|| out[..2 * n].to_vec());
        let [part, rates, invariant] = [&self.part, &self.rates, &self.invariant].map(|list| plain::ranges(list));
        let plain = plain::wall_step(&part, &rates, &invariant, d, b as i64);
        assert_eq!(found.as_deref().map(plain::ranges), plain);
        found
    }

    /// The wall step without the cut of T-06.
    fn before(&self, d: usize, b: i32) -> Option<Vec<i32>> {
        let (n, mut out) = (self.part.len() / 2, [0; MAX_BOX]);
        let found = before::wall_step(n, &self.part, &self.rates, &self.invariant, d, b, &mut out);
        found.then(|| out[..2 * n].to_vec())
    }
}

/// T-06: the request's case, as a step and as a plant after one pass. Later passes widen it, and it takes more
/// of them than before.
#[test]
fn the_case_of_the_request() {
    let step = Step::new(&[[0, 0], [5, 5], [10, 10]], &[[0, 1], [1, 1], [-1, -1]], 10);
    assert_eq!(step.now(0, 0), Some(vec![0, 0, 5, 10, 5, 10]));
    assert_eq!(step.before(0, 0), Some(vec![0, 0, 5, 10, 0, 10]));
    let words = standing_pump().words();
    let plant = Plant::from_words(&words).unwrap();
    let (outcome, after) = calls::analysis(&words, 1, buffers(42));
    assert_eq!((outcome, &after.table[..7]), (Ok((Answer::Unfinished, 1)), &[1, 0, 0, 5, 10, 5, 10][..]));
    let (outcome, after) = calls::analysis(&words, 1_000, buffers(42));
    assert_eq!((outcome, &after.table[..7]), (Ok((Answer::Safe, 6)), &[1, 0, 0, 5, 10, 0, 10][..]));
    let (mut table, mut work) = (vec![0; 42], vec![0; 42]);
    assert_eq!(before::run(&plant, 1, &mut table, &mut work), (Answer::Unfinished, 1));
    assert_eq!(table[..7], [1, 0, 0, 5, 10, 0, 10]);
    assert_eq!(before::run(&plant, 1_000, &mut table, &mut work), (Answer::Safe, 4));
    assert_eq!(table, after.table);
}

/// T-06: an empty interval gives nothing, though rounding and cutting gave a face.
#[test]
fn no_delay_that_all_can_live_with() {
    // x = 11 after 11/2; y, which rises or falls by 1 from 5, is then past its wall by 1/2.
    for (rate, face) in [(1, 10), (-1, 0)] {
        let mut step = Step::new(&[[0, 0], [5, 5]], &[[2, 2], [rate, rate]], 10);
        step.invariant[1] = 11;
        assert_eq!(step.now(0, 11), None);
        assert_eq!(step.before(0, 11), Some(vec![11, 11, face, face]));
    }
    // x = 10 after 5 or more; y until 6, z until 9/2: nothing, as before; with z until 5, one delay.
    let step = Step::new(&[[0, 0], [4, 4], [9, 9]], &[[0, 2], [1, 1], [-2, -2]], 10);
    assert_eq!(step.now(0, 10), None);
    assert_eq!(step.before(0, 10), None);
    let step = Step { part: vec![0, 0, 4, 4, 10, 10], ..step };
    assert_eq!(step.now(0, 10), Some(vec![10, 10, 9, 9, 0, 0]));
}

/// T-06: intervals that share exactly one delay with those that the others can live with.
#[test]
fn one_delay_that_all_can_live_with() {
    // x = 10 after 5 or more; y until 5.
    let step = Step::new(&[[0, 0], [5, 5], [10, 10]], &[[0, 2], [1, 1], [-1, -1]], 10);
    assert_eq!(step.now(0, 10), Some(vec![10, 10, 10, 10, 5, 5]));
    assert_eq!(step.before(0, 10), Some(vec![10, 10, 10, 10, 0, 5]));
    // x = 11 after 11/2 or more; y, falling, until 11/2.
    let step = Step::new(&[[0, 0], [11, 11], [0, 0]], &[[0, 2], [-2, -2], [1, 1]], 11);
    assert_eq!(step.now(0, 11), Some(vec![11, 11, 0, 0, 5, 6]));
    assert_eq!(step.before(0, 11), Some(vec![11, 11, 0, 0, 5, 11]));
    // Delay 0 alone: x is on the wall that it runs against.
    let step = Step::new(&[[10, 10], [0, 10]], &[[1, 1], [-1, 1]], 10);
    assert_eq!([step.now(0, 10), step.now(1, 0)], [Some(vec![10, 10, 0, 10]), Some(vec![10, 10, 0, 0])]);
    assert_eq!(step.before(1, 0), Some(vec![10, 10, 0, 0]));
}

/// T-06: an endless latest delay ends with the first variable that leaves; it stays endless where all can stay.
#[test]
fn endless_delays_that_end() {
    let first_to_leave = |rates: [[i32; 2]; 3]| Step::new(&[[3, 3], [4, 6], [5, 5]], &rates, 10).now(0, 3);
    // By the low end of a part that rises, after 3; by the high end of one that falls, after 3.
    assert_eq!(first_to_leave([[-1, 1], [2, 2], [0, 1]]), Some(vec![3, 3, 4, 10, 5, 8]));
    assert_eq!(first_to_leave([[-1, 1], [-3, -2], [-1, 0]]), Some(vec![3, 3, 0, 6, 2, 5]));
    // All can stay.
    assert_eq!(first_to_leave([[0, 0], [-9, 7], [-1, 1]]), Some(vec![3, 3, 0, 10, 0, 10]));
    assert_eq!(first_to_leave([[0, 0], [0, 1], [-1, 0]]), Some(vec![3, 3, 4, 10, 0, 5]));
    // The last of three leaves first, after 5/4: y 4 to 6 + 5/2.
    assert_eq!(first_to_leave([[-1, 1], [1, 2], [4, 4]]), Some(vec![3, 3, 4, 9, 5, 10]));
    // x leaves its wall at once.
    assert_eq!(first_to_leave([[1, 1], [1, 2], [4, 4]]), Some(vec![3, 3, 4, 6, 5, 5]));
}

/// T-06: a variable with rates of both signs, or with a rate of 0, can always stay. Of the others the part's low
/// end binds where it rises, its high end where it falls.
#[test]
fn the_end_that_binds() {
    let fall = |part: [i32; 2], rate: [i32; 2]| {
        // z falls by 1 from 30 and shows the latest delay to x = 0.
        let step = Step::new(&[[0, 0], part, [30, 30]], &[[0, 0], rate, [-1, -1]], 30);
        30 - step.now(0, 0).unwrap()[4]
    };
    assert_eq!(fall([10, 20], [1, 1]), 20);
    assert_eq!(fall([10, 20], [2, 5]), 10);
    assert_eq!(fall([10, 20], [-1, -1]), 20);
    assert_eq!(fall([10, 20], [-5, -2]), 10);
    assert_eq!(fall([10, 20], [-1_000, 1_000]), 30);
    assert_eq!(fall([10, 20], [0, 1_000]), 30);
    assert_eq!(fall([10, 20], [-1_000, 0]), 30);
    // 20/3 rounds to 7.
    assert_eq!(fall([10, 20], [3, 3]), 7);
    assert_eq!(fall([10, 20], [-3, -3]), 7);
}

/// T-07: quotes worked out by hand.
#[test]
fn quotes_by_hand() {
    for (label, draft, wanted) in quotes() {
        let Quote { words, bytes, ceiling } = calls::quote(&draft.words()).unwrap();
        assert_eq!([words, bytes, ceiling], wanted, "{label}");
    }
}

/// T-07: added up by location, the ceiling is the same number as the sum over faces, and over pieces with T-12: of
/// every location of random models, small ones and the widest.
#[test]
fn the_ceiling_by_location() {
    let mut random = Random::new(7);
    // Locations by n, without a cut and with one.
    let mut seen = [[0u64; 2]; 7];
    for turn in 0..6_000 {
        let words = if turn % 3 == 0 { extreme_model(&mut random) } else { random_model(&mut random) }.words();
        let plant = Plant::from_words(&words).unwrap();
        let mut sum = 0;
        for l in 0..plant.sizes.locations {
            let location = plant.location(l);
            assert_eq!(ceiling::of_location(&plant, l), by_widths(&location), "{location:?}");
            sum += by_widths(&location);
            seen[plant.sizes.n][location.cut.is_some() as usize] += 1;
        }
        assert_eq!(calls::quote(&words).unwrap().ceiling, sum);
    }
    assert!(seen[1..].iter().flatten().all(|&count| count > 500), "{seen:?}");
}

/// T-07: a location's share by T-07's own words, and what the value of a cut makes of it: nothing.
#[test]
fn shares_of_a_location() {
    let share = |invariant: &[i32], cut: Option<(usize, i32)>| {
        let cut = cut.map(|(variable, value)| Cut { variable, value });
        by_widths(&Location { invariant, rates: &[], started: false, start: &[], cut })
    };
    assert_eq!(share(&[0, 10, 0, 10], None), 4 + 2 * 20);
    assert_eq!(share(&[0, 1_000], None), 2);
    assert_eq!(share(&[3, 3, 3, 3, 3, 3], None), 6);
    assert_eq!(share(&[0, 1, 0, 20, 0, 300], None), 6 + 4 * 321);
    // On the walls of y 1 + 301 each; on those of x 2 + 20 + 2 × 300, on those of z 2 + 20 + 2 × 1.
    let cut_in_y = 2 * 302 + 2 * 622 + 2 * 24;
    for value in [1, 10, 19] {
        assert_eq!(share(&[0, 1, 0, 20, 0, 300], Some((1, value))), cut_in_y);
    }
    assert_eq!(share(&[0, 1_000], Some((0, 7))), 2);
}

/// T-07: the quote is written in every case, zeros on a refusal, and nothing else is.
#[test]
fn quotes_are_always_written() {
    let quoted = |model: &[i32]| {
        let mut file = [6];
        let (number, value, quote) = answered(Call::Quote, model, &mut file);
        assert_eq!((value, file), (OLD_VALUE, [6]));
        (number, quote)
    };
    let p = plant_p().words();
    assert_eq!(quoted(&p), (100, Quote { words: 20, bytes: 115, ceiling: 44 }));
    assert_eq!(quoted(&[&p[..], &[1, 2, 3]].concat()), quoted(&p));
    for length in 0..p.len() {
        assert_eq!(quoted(&p[..length]), (5, Quote::default()));
    }
    for (place, word, number) in BAD_WORDS_OF_P {
        let mut words = p.clone();
        words[place] = word;
        assert_eq!(quoted(&words), (number, Quote::default()));
    }
}

/// T-07: what is held to a quote, and what is not.
#[test]
fn what_a_quote_allows() {
    let quote = Quote { words: 20, bytes: 115, ceiling: 44 };
    let holds = |passes, words, bytes| quote.holds(&Taken { passes, words, bytes });
    assert!(holds(44, 20, 115) && holds(0, 20, 7));
    assert!(!holds(45, 20, 115) && !holds(44, 21, 115) && !holds(44, 19, 115) && !holds(44, 20, 116));
}

/// T-07: plants that take all passes of their quote, with a table file as long as quoted.
#[test]
fn all_that_is_quoted() {
    let row = face_by_face(&[[0, 3], [5, 6], [-9, 9]], &[(1, 0), (0, 1), (2, 0), (2, 1), (1, 1), (0, 0)]);
    for draft in [row, level_by_level()] {
        let words = draft.words();
        let quote = calls::quote(&words).unwrap();
        let (outcome, after) = calls::analysis(&words, u32::MAX, buffers(quote.words as usize));
        assert_eq!(outcome, Ok((Answer::Safe, quote.ceiling as u32)));
        let (outcome, _) = calls::write_table(&words, &after.table, vec![0; quote.bytes as usize]);
        assert_eq!(outcome, Ok(quote.bytes as usize));
        let (outcome, _) = calls::analysis(&words, quote.ceiling as u32 - 1, buffers(quote.words as usize));
        assert_eq!(outcome, Ok((Answer::Unfinished, quote.ceiling as u32 - 1)));
    }
}

/// T-10: the head's fifth word is the edition, 1 or 2; all records move by one. Under five words gets 5, and 43 is
/// asked after 4, before 5 of the whole.
#[test]
fn edition_words() {
    let words = plant_p().words();
    assert_eq!(words[..HEAD_WORDS], [2, 1, 0, 1, 1]);
    assert_eq!(words[HEAD_WORDS..][..4], [0, 10, 0, 10]);
    assert_eq!(words.len(), 25);
    assert_eq!(Draft { edition: Edition::Two, ..plant_p() }.words()[..HEAD_WORDS], [2, 1, 0, 1, 2]);
    assert_eq!(calls::ceiling(&[1, 1, 0, 0, 3]), Err(43));
    for (list, number) in short_lists() {
        assert_eq!(calls::ceiling(&list), Err(number), "{list:?}");
        assert_eq!(calls::checker(&list, &[]), Err(number), "{list:?}");
    }
    let number = |edition: i32, changes: &[(usize, i32)]| {
        let mut words = plant_p().words();
        words[EDITION_AT] = edition;
        changes.iter().for_each(|&(place, word)| words[place] = word);
        let lent = buffers(7);
        let (outcome, after) = calls::analysis(&words, 9, lent.clone());
        assert_eq!(after, lent);
        outcome.unwrap_err()
    };
    for edition in NO_EDITION {
        assert_eq!(number(edition, &[]), 43);
        assert_eq!(number(edition, &[(P_LOCATION, 1_000_001)]), 43);
        assert_eq!(number(edition, &[(P_CUT, 2)]), 43);
        assert_eq!(number(edition, &[(3, 65)]), 4);
        assert_eq!(number(edition, &[(1, 0)]), 3);
        assert_eq!(number(edition, &[(0, 7)]), 2);
    }
    for edition in [1, 2] {
        assert_eq!(number(edition, &[]), 20);
        assert_eq!(number(edition, &[(P_LOCATION, 1_000_001)]), 11);
        assert_eq!(number(edition, &[(P_CUT, 2)]), 46);
    }
}

/// T-10: the first tag, 1 or 9, gives the edition word, and is written back as it. The head field is as it was.
#[test]
fn editions_in_files() {
    let read = |file: &[u8]| calls::read_model(file, vec![3; P_WORDS + 1]);
    for (edition, tag) in [(Edition::One, 1), (Edition::Two, 9)] {
        let words = Draft { edition, ..plant_p() }.words();
        let file = model_file(&words);
        assert_eq!(file[..19], field(tag, &[2, 1, 0, 1]));
        assert_eq!(file.len(), 97);
        assert_eq!(read(&file), (Ok(P_WORDS), [&words[..], &[3]].concat()));
        assert_eq!(listing(&file), "safe 1 2\n0 0 0 0 2 5\n0 3 2 8 10 10\n");
    }
    let file = model_file(&plant_p().words());
    let unchanged = |number| (Err(number), vec![3; P_WORDS + 1]);
    for tag in (0..=255).filter(|tag| ![1, 9].contains(tag)) {
        assert_eq!(read(&[&[tag], &file[1..]].concat()), unchanged(1));
    }
    // Another length, half a head, other counts.
    assert_eq!(read(&[&field(9, &[2, 1, 0]), &file[19..]].concat()), unchanged(1));
    assert_eq!(read(&[&field(9, &[2, 1, 0, 1, 2]), &file[19..]].concat()), unchanged(1));
    assert_eq!(read(&field(9, &[2, 1, 0, 1])[..18]), unchanged(1));
    assert_eq!(read(&field(9, &[7, 1, 0, 1])), unchanged(2));
    assert_eq!(read(&field(9, &[2, 65, 0, 1])), unchanged(3));
    assert_eq!(read(&field(9, &[2, 1, 0, 65])), unchanged(4));
    assert_eq!(calls::read_model(&field(9, &[2, 1, 0, 1]), vec![3; 24]), (Err(5), vec![3; 24]));
    assert_eq!(read(&field(9, &[2, 1, 0, 1])), (Err(6), vec![0; P_WORDS + 1]));
}

/// T-10: in edition 2 question 16 looks at d alone, in edition 1 at every masked variable.
#[test]
fn resets_in_both_editions() {
    let number = |edition: Edition, mask: u32, x: [i32; 2], y: [i32; 2]| {
        let mut draft = Draft { edition, ..set_to(y) };
        draft.switches[0].mask = mask;
        draft.switches[0].reset[..2].copy_from_slice(&x);
        calls::ceiling(&draft.words()).err()
    };
    // d is x, at 10 in both locations.
    for (mask, x, y, in_1, in_2) in [
        (0b10, [10, 10], [2, 5], Some(16), None),
        (0b10, [10, 10], [4, 4], None, None),
        (0b10, [8, 12], [4, 4], None, None),
        (0b10, [8, 12], [2, 5], Some(16), None),
        (0b11, [10, 10], [2, 5], Some(16), None),
        (0b11, [10, 10], [4, 4], None, None),
        (0b11, [8, 12], [4, 4], Some(16), Some(16)),
        (0b11, [10, 12], [2, 5], Some(16), Some(16)),
        (0b01, [10, 11], [2, 5], Some(16), Some(16)),
        (0b01, [10, 10], [2, 5], None, None),
        (0b00, [8, 12], [2, 5], None, None),
        // 15 before 16, 18 after it.
        (0b10, [10, 10], [5, 2], Some(15), Some(15)),
        (0b10, [10, 10], [2, 1_000_001], Some(15), Some(15)),
        (0b11, [10, 12], [5, 2], Some(15), Some(15)),
        (0b11, [9, 9], [2, 5], Some(16), Some(18)),
        (0b11, [9, 10], [2, 5], Some(16), Some(16)),
    ] {
        assert_eq!(number(Edition::One, mask, x, y), in_1, "{mask:b} {x:?} {y:?}");
        assert_eq!(number(Edition::Two, mask, x, y), in_2, "{mask:b} {x:?} {y:?}");
    }
}

/// T-10: the switch step sets a masked variable to its whole range, then cuts it to the target's invariant.
#[test]
fn ranges_are_set_whole() {
    let landed = |draft: Draft| {
        let words = draft.words();
        let plant = Plant::from_words(&words).unwrap();
        let (_, after) = calls::analysis(&words, 9, buffers(plant.table_words()));
        after.table[plant.face_places(1, 1)].to_vec()
    };
    assert_eq!(landed(set_to([2, 5])), [1, 10, 10, 2, 5]);
    assert_eq!(landed(set_to([-7, 5])), [1, 10, 10, 0, 5]);
    assert_eq!(landed(set_to([2, 50])), [1, 10, 10, 2, 10]);
    assert_eq!(landed(set_to([10, 50])), [1, 10, 10, 10, 10]);
    assert_eq!(landed(set_to([11, 50])), [0; 5]);
    // Cut at y = 3, the range lands on both pieces, each with the value.
    let cut = |range| Draft { cuts: vec![(1, 1, 3)], ..set_to(range) };
    assert_eq!(landed(cut([2, 5])), [1, 10, 10, 2, 3, 1, 10, 10, 3, 5]);
    assert_eq!(landed(cut([3, 3])), [1, 10, 10, 3, 3, 1, 10, 10, 3, 3]);
    assert_eq!(landed(cut([4, 5])), [0, 0, 0, 0, 0, 1, 10, 10, 4, 5]);
    assert_eq!(landed(cut([1, 2])), [1, 10, 10, 1, 2, 0, 0, 0, 0, 0]);
}

/// T-10: after the switch a masked variable has any value of its range, fractions too; the others are unchanged.
#[test]
fn runs_take_any_value_of_a_range() {
    let words = set_to([2, 5]).words();
    let plant = Plant::from_words(&words).unwrap();
    let at = |location: usize, x: i64, y: i64| Configuration { location, levels: vec![x, y] };
    let may = |denominator: i64, x: i64, y: i64| {
        may_move(&plant, denominator, &at(0, 10 * denominator, 0), Move::Switch(0), &at(1, x, y))
    };
    assert!(may(1, 10, 2) && may(1, 10, 3) && may(1, 10, 5) && may(3, 30, 7) && may(7, 70, 35));
    assert!(!may(1, 10, 1) && !may(1, 10, 6) && !may(3, 30, 5) && !may(3, 30, 16) && !may(1, 9, 3) && !may(1, 10, 0));
    // What of the range lies outside the target is no configuration.
    let words = set_to([8, 12]).words();
    let plant = Plant::from_words(&words).unwrap();
    let may = |y: i64| may_move(&plant, 2, &at(0, 20, 0), Move::Switch(0), &at(1, 20, y));
    assert!(may(16) && may(19) && may(20) && !may(21) && !may(15));
}

/// T-10: a table must hold the whole range.
#[test]
fn tables_hold_whole_ranges() {
    let words = set_to([2, 5]).words();
    let number = |y: [i32; 2]| {
        let mut table = [[1, 0, 0, 0, 0], [1, 10, 10, 0, 0], [1, 0, 10, 0, 0], [0; 5], [0; 5]].concat();
        table.extend([1, 10, 10, y[0], y[1]]);
        table.extend([0; 10]);
        calls::checker(&words, &table).err()
    };
    assert_eq!(number([2, 5]), None);
    assert_eq!(number([1, 9]), None);
    for y in [[2, 2], [5, 5], [3, 4], [3, 5], [2, 4]] {
        assert_eq!(number(y), Some(33));
    }
}

/// T-10: a forbidden box that only a value strictly inside the range meets, at neither end, as a plant.
#[test]
fn hand_filled_cups() {
    let mut file = model_file(&hand_filled(BY_HAND, OVER_THE_RIM).words());
    assert!(file[0] == 9 && listing(&file).starts_with("safe 4"));
    file[0] = 1;
    assert_eq!(listing(&file), "refused 16\n");
}

/// T-10: what each kind of damage to an edition or to a reset range is refused by, in words and in files.
#[test]
fn damaged_editions_and_ranges() {
    let mut random = Random::new(22);
    let mut seen = [0; RANGE_DAMAGE.len()];
    for _ in 0..6_000 {
        let words = random_model(&mut random).words();
        let plant = Plant::from_words(&words).unwrap();
        let (damaged, kind) = damaged_ranges(&mut random, &plant);
        let (name, in_words, in_a_file) = RANGE_DAMAGE[kind];
        assert_eq!(calls::ceiling(&damaged).err(), in_words, "{name}");
        let file = file_of_words(&plant.sizes, &damaged);
        assert_eq!(calls::read_model(&file, vec![0; MOST_MODEL_WORDS]).0.err(), in_a_file, "{name}");
        seen[kind] += 1;
    }
    assert!(seen.iter().all(|&count| count > 80), "{seen:?}");
}

/// T-12: P without a cut is what it was, in its file, its table, its table file and its listing.
#[test]
fn p_is_unchanged() {
    let words = plant_p().words();
    assert_eq!(words[P_CUT..], [-1, 0]);
    let file = model_file(&words);
    assert_eq!(file.len(), 97);
    assert_eq!(calls::read_model(&file, vec![3; P_WORDS + 2]), (Ok(P_WORDS), [&words[..], &[3, 3]].concat()));
    assert_eq!(calls::ceiling(&words), Ok(44));
    let (outcome, after) = calls::analysis(&words, 1_000, buffers(20));
    assert_eq!((outcome, after.table), (Ok((Answer::Safe, 1)), plant_p_table()));
    assert_eq!(calls::checker(&words, &plant_p_wider()), Ok(()));
    let (outcome, bytes) = calls::write_table(&words, &plant_p_table(), vec![9; 115]);
    let mut table = field(6, &[2]);
    table.extend(field(5, &[0, 0, 0, 0, 2, 5]));
    table.extend(field(5, &[0, 3, 2, 8, 10, 10]));
    assert_eq!((outcome, &bytes[..61]), (Ok(61), &table[..]));
    assert_eq!(calls::write_table(&words, &plant_p_table(), vec![9; 114]).0, Err(39));
    assert_eq!(listing(&file), "safe 1 2\n0 0 0 0 2 5\n0 3 2 8 10 10\n");
}

/// T-12: P cut at x = 5: a first and a second piece on both walls of y, and a second piece on the walls of
/// x that is always absent.
#[test]
fn p_cut() {
    let words = plant_p_cut().words();
    assert_eq!(words[P_CUT..], [0, 5]);
    let file = model_file(&words);
    assert_eq!(file[97..], field(8, &[0, 0, 5]));
    assert_eq!(calls::read_model(&file, vec![3; P_WORDS]), (Ok(P_WORDS), words.clone()));
    // 2 × (1 + 10) on the walls of x, 2 × 2 × (1 + 5) on those of y.
    assert_eq!(calls::ceiling(&words), Ok(46));
    let (outcome, after) = calls::analysis(&words, 1_000, buffers(41));
    assert_eq!(outcome, Ok((Answer::Safe, 1)));
    assert_eq!(after.table, [&plant_p_cut_table()[..], &[-7]].concat());
    assert_eq!(after.work, [0; 41]);
    assert_eq!(calls::analysis(&words, 9, buffers(39)), (Err(20), buffers(39)));
    assert_eq!(calls::checker(&words, &plant_p_cut_table()), Ok(()));
    assert_eq!(calls::checker(&words, &plant_p_cut_table()[..39]), Err(20));
    let room = 7 + 8 * 31;
    let (outcome, bytes) = calls::write_table(&words, &plant_p_cut_table(), vec![9; room]);
    let mut table = field(6, &[3]);
    table.extend(field(5, &[0, 0, 0, 0, 0, 2, 5]));
    table.extend(field(5, &[0, 3, 0, 2, 5, 10, 10]));
    table.extend(field(5, &[0, 3, 1, 5, 8, 10, 10]));
    assert_eq!((outcome, &bytes[..table.len()]), (Ok(table.len()), &table[..]));
    assert_eq!(calls::write_table(&words, &plant_p_cut_table(), vec![9; room - 1]).0, Err(39));
    assert_eq!(calls::read_table(&words, &table, vec![4; 40]), (Ok(40), plant_p_cut_table()));
    assert_eq!(calls::check(&file, &table), 100);
    assert_eq!(calls::decide(&file, vec![0; room], 5).0, 100 << 32 | 1);
    assert_eq!(listing(&file), "safe 1 3\n0 0 0 0 0 2 5\n0 3 0 2 5 10 10\n0 3 1 5 8 10 10\n");
}

/// T-12: a start part is not cut to pieces. With T-06 its two halves would lead to the same box; without it t
/// came to 10 on x = 10 from the whole part, and to 5 from its half x 5..10, the only one that arrived.
#[test]
fn a_start_part_and_its_halves() {
    let location =
        LocationDraft { invariant: [0, 10].repeat(3), rates: vec![1; 6], start: Some(vec![0, 10, 6, 6, 0, 0]) };
    let draft = Draft { n: 3, locations: vec![location], cuts: vec![(0, 0, 5)], ..Draft::default() };
    let words = draft.words();
    let plant = Plant::from_words(&words).unwrap();
    let (outcome, after) = calls::analysis(&words, 1, buffers(plant.table_words()));
    assert!(outcome.is_ok());
    assert_eq!(after.table[plant.face_places(0, 1)][..7], [1, 10, 10, 6, 10, 0, 4]);
    let [whole, below, above] = [[0, 10], [0, 5], [5, 10]].map(|x| Step::new(&[x, [6, 6], [0, 0]], &[[1, 1]; 3], 10));
    assert_eq!([whole.now(0, 10), below.now(0, 10)], [Some(vec![10, 10, 6, 10, 0, 4]), None]);
    assert_eq!(above.now(0, 10), whole.now(0, 10));
    assert_eq!([whole.before(0, 10), below.before(0, 10)], [Some(vec![10, 10, 6, 10, 0, 10]), None]);
    assert_eq!(above.before(0, 10), Some(vec![10, 10, 6, 10, 0, 5]));
}

/// T-12: question 46 of words, after all of 19, location by location.
#[test]
fn cuts_in_words() {
    let number = |cut: [i32; 2]| {
        let mut words = plant_p().words();
        words[P_CUT..].copy_from_slice(&cut);
        calls::ceiling(&words).err()
    };
    for cut in [[-1, 0], [0, 1], [0, 9], [1, 1], [1, 9]] {
        assert_eq!(number(cut), None, "{cut:?}");
    }
    for cut in [[-1, 5], [-2, 0], [-2, 5], [2, 5], [0, 0], [0, 10], [1, 10], [0, 11], [0, -1], [i32::MAX, 5]] {
        assert_eq!(number(cut), Some(46), "{cut:?}");
    }
    // 5 counts two words for each location.
    let words = plant_p_cut().words();
    assert_eq!(calls::ceiling(&words[..P_CUT + 1]), Err(5));
    assert_eq!(calls::ceiling(&words[..P_CUT]), Err(5));
    // 19 comes first, and 46 before 20.
    let mut words = plant_p_cut().words();
    words[P_CUT + 1] = 10;
    assert_eq!(calls::checker(&words, &[]), Err(46));
    let lent = buffers(3);
    assert_eq!(calls::analysis(&words, 5, lent.clone()), (Err(46), lent));
    words[P_FORBIDDEN] = 1;
    assert_eq!(calls::checker(&words, &[]), Err(19));
}

/// T-12: question 46 and 8 of files. A word buffer is zeroed by either.
#[test]
fn cuts_in_files() {
    let p = model_file(&plant_p().words());
    let read = |bytes: &[u8]| calls::read_model(&[&p, bytes].concat(), vec![3; P_WORDS + 2]);
    let refused = |number| (Err(number), vec![0; P_WORDS + 2]);
    let cut = |location, variable, value| field(8, &[location, variable, value]);
    assert_eq!(read(&cut(0, 0, 5)).0, Ok(P_WORDS));
    // Wholeness and length.
    for length in 1..15 {
        assert_eq!(read(&cut(0, 0, 5)[..length]), refused(46));
    }
    assert_eq!(read(&field(8, &[0, 0])), refused(46));
    assert_eq!(read(&field(8, &[0, 0, 5, 0])), refused(46));
    // Location and order.
    assert_eq!(read(&cut(1, 0, 5)), refused(46));
    assert_eq!(read(&cut(-1, 0, 5)), refused(46));
    assert_eq!(read(&[cut(0, 0, 5), cut(0, 1, 5)].concat()), refused(46));
    // Variable and value.
    for (variable, value) in [(-1, 0), (-1, 5), (-2, 5), (2, 5), (0, 0), (0, 10), (1, 11)] {
        assert_eq!(read(&cut(0, variable, value)), refused(46));
    }
    // Another tag, also after a cut; a cut that is wrong where the end is expected comes before it.
    assert_eq!(read(&[9]), refused(8));
    assert_eq!(read(&[cut(0, 0, 5), vec![0]].concat()), refused(8));
    assert_eq!(read(&[cut(0, -1, 5), vec![0]].concat()), refused(46));
    assert_eq!(read(&[cut(0, -2, 5), vec![0]].concat()), refused(8));
    // Of the variable only -1 is asked before 11 to 19.
    let mut too_high = plant_p();
    too_high.locations[0].invariant[3] = 1_000_001;
    let too_high = model_file(&too_high.words());
    let read = |bytes: &[u8]| calls::read_model(&[&too_high, bytes].concat(), vec![3; P_WORDS + 2]);
    assert_eq!(read(&cut(0, -1, 5)), refused(46));
    assert_eq!(read(&cut(0, -2, 5)), refused(11));
    // 5 comes before the cuts, and changes nothing.
    let short = vec![3; P_WORDS - 1];
    assert_eq!(calls::read_model(&[&p[..], &[8]].concat(), short.clone()), (Err(5), short));
}

/// T-12: cuts of several locations ascend, and need not be of all.
#[test]
fn cuts_ascend() {
    let file = |cuts: &[(i32, i32, i32)]| {
        let mut bytes = model_file(&water_level(20).words());
        cuts.iter().for_each(|cut| bytes.extend(field(8, &[cut.0, cut.1, cut.2])));
        calls::read_model(&bytes, vec![0; 200]).0
    };
    assert_eq!(file(&[]), file(&[(1, 1, 10), (3, 0, 20)]));
    assert!(file(&[(0, 0, 50), (1, 0, 120), (2, 0, 100), (3, 0, 20)]).is_ok());
    assert_eq!(file(&[(3, 0, 20), (1, 1, 10)]), Err(46));
    assert_eq!(file(&[(1, 1, 10), (1, 1, 10)]), Err(46));
    assert_eq!(file(&[(1, 1, 10), (4, 0, 20)]), Err(46));
}

/// T-12: the places of a table are sums: a cut location before an uncut one, and the other way round.
#[test]
fn places_are_sums() {
    let words = water_level_cut().words();
    let plant = Plant::from_words(&words).unwrap();
    let from: Vec<usize> = (0..4).map(|l| plant.location_places(l).start).collect();
    assert_eq!(from, [0, 20, 60, 100]);
    assert_eq!(plant.table_words(), 120);
    assert_eq!(plant.table_file_room(), 7 + 24 * 31);
}

/// T-12: each piece keeps to its side; both hold the value, so a table with it in one alone changes.
#[test]
fn pieces_keep_to_their_side() {
    let words = plant_p_cut().words();
    let number = |changes: &[(usize, i32)]| {
        let mut table = plant_p_cut_table();
        changes.iter().for_each(|&(place, word)| table[place] = word);
        calls::checker(&words, &table).err()
    };
    assert_eq!(number(&[]), None);
    assert_eq!(number(&[(32, 6)]), Some(32));
    assert_eq!(number(&[(36, 4)]), Some(32));
    assert_eq!(number(&[(31, 6), (32, 8)]), Some(32));
    assert_eq!(number(&[(32, 4)]), Some(33));
    assert_eq!(number(&[(36, 6)]), Some(33));
    // A second piece on x = 0, a wall of the cut variable.
    assert_eq!(number(&[(5, 1), (8, 2), (9, 5)]), Some(32));
}

/// T-12: the piece in the fields of a table file.
#[test]
fn pieces_in_files() {
    let words = water_level_cut().words();
    let read = |records: &[Vec<i32>]| {
        let mut bytes = field(6, &[records.len() as i32]);
        records.iter().for_each(|record| bytes.extend(field(5, record)));
        calls::read_table(&words, &bytes, vec![4; 120]).0
    };
    // Location 1 is cut at clock 10, location 2 at level 100; the others are not.
    assert_eq!(read(&[vec![0, 1, 0, 100, 100, 0, 0]]), Ok(120));
    assert_eq!(read(&[vec![0, 1, 1, 100, 100, 0, 0]]), Err(37));
    assert_eq!(read(&[vec![1, 1, 1, 150, 150, 10, 20]]), Ok(120));
    assert_eq!(read(&[vec![1, 1, 1, 150, 150, 9, 20]]), Err(32));
    assert_eq!(read(&[vec![1, 1, 2, 150, 150, 10, 20]]), Err(37));
    assert_eq!(read(&[vec![1, 1, -1, 150, 150, 10, 20]]), Err(37));
    assert_eq!(read(&[vec![1, 1, 1, 150, 150, 10, 20], vec![1, 1, 0, 150, 150, 0, 10]]), Err(37));
    assert_eq!(read(&[vec![1, 1, 1, 150, 150, 10, 20], vec![1, 1, 1, 150, 150, 10, 20]]), Err(37));
    // On the cut variable's own wall the second piece exists (37) and is to be absent (32).
    assert_eq!(read(&[vec![2, 1, 1, 150, 150, 0, 0]]), Err(32));
    // The field is longer in every location, and nowhere in a model without cuts.
    assert_eq!(read(&[vec![0, 1, 100, 100, 0, 0]]), Err(36));
    let mut bytes = field(6, &[1]);
    bytes.extend(field(5, &[0, 1, 0, 100, 100, 0, 0]));
    assert_eq!(calls::read_table(&water_level(20).words(), &bytes, vec![4; 80]).0, Err(36));
    // 35 counts 4n pieces for each of the two cut locations.
    assert_eq!(calls::read_table(&words, &field(6, &[24]), vec![4; 120]).0, Err(36));
    assert_eq!(calls::read_table(&words, &field(6, &[25]), vec![4; 120]).0, Err(35));
}

/// T-12: every piece of the source's face is switched from, and what lands is cut to the target's pieces.
#[test]
fn switches_from_every_piece() {
    let mut draft = three_tanks(true);
    draft.forbidden.clear();
    // Location 0, cut too, starts with vat 1 on both sides of its value.
    draft.locations[0].start = Some(vec![0, 0, 4, 6, 1, 2]);
    draft.locations[1].start = None;
    draft.cuts = vec![(0, 1, 5), (2, 2, 5)];
    let words = draft.words();
    let plant = Plant::from_words(&words).unwrap();
    let (outcome, after) = calls::analysis(&words, 2, buffers(plant.table_words()));
    assert!(outcome.is_ok());
    assert_eq!(after.table[plant.face_places(0, 1)], [1, 10, 10, 4, 5, 1, 2, 1, 10, 10, 5, 6, 1, 2]);
    assert_eq!(after.table[plant.face_places(2, 1)], [1, 10, 10, 4, 6, 1, 2, 0, 0, 0, 0, 0, 0, 0]);
}

/// T-12: the largest sizes.
#[test]
fn the_largest_sizes() {
    let words = all_cut(large_grid(6, 3)).words();
    assert_eq!(words.len(), 7_173);
    assert_eq!(words.len(), MOST_MODEL_WORDS);
    assert_eq!(model_file(&words).len(), 29_907);
    let plant = Plant::from_words(&words).unwrap();
    assert_eq!(plant.table_words(), 19_968);
    assert_eq!(plant.table_file_room(), 96_775);
    assert_eq!(plant.table_file_room(), second::held::compare::MOST_ROOM);
    assert_eq!(calls::ceiling(&all_cut(widest()).words()), Ok(12_800_001_408));
}
