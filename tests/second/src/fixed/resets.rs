//! The fixed cases of editions and reset ranges (document 02, T-10), of all calls: question 43 and its place, the
//! first tag, question 16 in both editions, and switch steps, answers and tables worked out by hand.

use crate::c_calls::exports::Call;
use crate::c_calls::slices::{Input, Lengths};
use crate::fixed::documents::{answer, EDGES};
use crate::fixed::starts::{answered_as, unwanted, Answered, OfTable};
use crate::held::compare::{Comparison, Difference, MOST_ROOM};
use crate::inputs::draft::Draft;
use crate::inputs::examples::{
    all_cut, hand_filled, large_grid, plant_p, set_to, AT_THE_STIRRER, BY_HAND, OVER_THE_RIM, P_CUT, P_FORBIDDEN,
    P_LOCATION, P_START_FLAG, P_WORDS,
};
use crate::reference::files::{field, file_of_words, model_file, HEAD, HEAD_2, HEAD_FIELD_BYTES};
use crate::reference::host::MOST_MODEL_WORDS;
use crate::reference::model::{Edition, Plant, EDITION_AT, LEVEL, SWITCH_HEAD};

/// Words that stand for no edition.
pub const NO_EDITION: [i32; 10] = [0, 3, -1, -2, 4, 9, 257, 65_537, i32::MIN, i32::MAX];

/// Lists that are too short for their records, and their numbers: 5 under five words, then 2, 3, 4, 43, 5.
pub fn short_lists() -> Vec<(Vec<i32>, u32)> {
    let mut lists = vec![
        (vec![], 5),
        (vec![7], 5),
        (vec![1, 1, 0, 0], 5),
        (vec![7, 65, -1, 65], 5),
        (vec![7, 65, -1, 65, 3], 2),
        (vec![7, 1, 0, 0, 1], 2),
        (vec![0, 1, 0, 0, 0], 2),
        (vec![1, 65, -1, 65, 3], 3),
        (vec![6, 0, 0, 0, 2], 3),
        (vec![1, 1, 129, 0, 3], 4),
        (vec![1, 1, 0, 65, 0], 4),
        (vec![1, 1, -1, 0, -1], 4),
        (vec![1, 1, 0, -1, 2], 4),
        (vec![6, 64, 128, 64, 3], 43),
        (vec![6, 64, 128, 64, 2], 5),
        (vec![1, 1, 0, 0, 1], 5),
        (vec![1, 1, 0, 0, 2], 5),
        (vec![1, 1, 0, 0, 2, 0, 0], 5),
        (vec![1, 1, 0, 0, 3, 0, 0], 43),
    ];
    lists.extend(NO_EDITION.map(|word| (vec![1, 1, 0, 0, word], 43)));
    lists
}

/// A change to a word of P and the number of the question that it fails.
const BAD_RECORDS_OF_P: [(usize, i32, u32); 5] = [
    (P_LOCATION, LEVEL + 1, 11),
    (P_LOCATION + 4, 1_001, 12),
    (P_START_FLAG, 2, 13),
    (P_FORBIDDEN, 1, 19),
    (P_CUT, -2, 46),
];

/// A change to the words of `hand_filled`, and its numbers in edition 1 and in edition 2; 100 if all questions are
/// yes. Its first switch, at x = 0, masks y and has the range 2..5; its second, at y = 0, masks nothing.
type OfSwitches = (&'static str, Vec<(usize, i32)>, [u32; 2]);

fn switches() -> Vec<OfSwitches> {
    let words = hand_filled(BY_HAND, OVER_THE_RIM).words();
    let sizes = Plant::from_words(&words).expect("an example passes its questions").sizes;
    let (first, second) = (sizes.switch_at(0), sizes.switch_at(1));
    let mask = |s: usize| sizes.switch_at(s) + SWITCH_HEAD - 1;
    let guard = |s: usize, i: usize| sizes.switch_at(s) + SWITCH_HEAD + 2 * i;
    let reset = |s: usize, i: usize| sizes.reset_at(s, i);
    let single = (reset(0, 1) + 1, 2);
    vec![
        ("as it is", vec![], [16, 100]),
        ("a single value", vec![single], [100, 100]),
        ("a range of two levels", vec![(reset(0, 1) + 1, 3)], [16, 100]),
        ("a range of all levels", vec![(reset(0, 1), -LEVEL), (reset(0, 1) + 1, LEVEL)], [16, 100]),
        ("a range outside the target", vec![(reset(0, 1), 9), (reset(0, 1) + 1, 12)], [16, 100]),
        ("nothing masked", vec![(mask(0), 0)], [100, 100]),
        // d of the first switch is x, at 0 in both locations.
        ("d unmasked, a range of d", vec![(reset(0, 0) + 1, 5)], [16, 100]),
        ("d unmasked, a range of d, y single", vec![(reset(0, 0) + 1, 5), single], [100, 100]),
        ("d unmasked, a range of d without its wall", vec![(reset(0, 0), 3), (reset(0, 0) + 1, 5), single], [100, 100]),
        ("d masked", vec![(mask(0), 3)], [16, 100]),
        ("d masked, y single", vec![(mask(0), 3), single], [100, 100]),
        ("d masked, a range of d", vec![(mask(0), 3), (reset(0, 0) + 1, 5)], [16, 16]),
        ("d masked, a range of d, y single", vec![(mask(0), 3), (reset(0, 0) + 1, 5), single], [16, 16]),
        ("d alone masked, a range of d", vec![(mask(0), 1), (reset(0, 0) + 1, 1)], [16, 16]),
        ("d alone masked, a range of y", vec![(mask(0), 1)], [100, 100]),
        ("the second switch, its d masked, a range of d", vec![single, (mask(1), 2), (reset(1, 1) + 1, 1)], [16, 16]),
        ("the second switch, x masked, its range as it is", vec![single, (mask(1), 1)], [16, 100]),
        // The order of one switch's questions.
        ("14 and a range of d masked", vec![(mask(0), 3), (reset(0, 0) + 1, 5), (first + 4, 2)], [14, 14]),
        ("a mask of 4", vec![(mask(0), 4)], [14, 14]),
        ("15 by the range", vec![(reset(0, 1), 6)], [15, 15]),
        ("15 by the range's end", vec![(reset(0, 1) + 1, LEVEL + 1)], [15, 15]),
        ("15 by the range's beginning", vec![(reset(0, 1), -LEVEL - 1)], [15, 15]),
        ("15 and a range of d masked", vec![(mask(0), 3), (reset(0, 0) + 1, 5), (reset(0, 1), 6)], [15, 15]),
        ("17 and a range", vec![(guard(0, 0) + 1, 1)], [16, 17]),
        ("17 and a range of d masked", vec![(mask(0), 3), (reset(0, 0) + 1, 5), (guard(0, 0) + 1, 1)], [16, 16]),
        ("18 and a range", vec![(first + 4, 1)], [16, 18]),
        ("18 by d masked, and a range", vec![(mask(0), 3), (reset(0, 0), 1), (reset(0, 0) + 1, 1)], [16, 18]),
        ("18 by d masked, and its range", vec![(mask(0), 3), (reset(0, 0), 1), (reset(0, 0) + 1, 2)], [16, 16]),
        // All of one switch before the next; switches before boxes, boxes before cuts.
        ("17, and 16 of the next", vec![(guard(0, 0) + 1, 1), (mask(1), 2), (reset(1, 1) + 1, 1)], [16, 17]),
        ("a range, and 14 of the next", vec![(second, -1)], [16, 14]),
        ("a range of d masked, and 14 of the next", vec![(mask(0), 3), (reset(0, 0) + 1, 5), (second, -1)], [16, 16]),
        ("a range, and 19", vec![(sizes.forbidden_at(0), 2)], [16, 19]),
        ("a range, and 46", vec![(sizes.cut_at(0), -2)], [16, 46]),
        ("a range, and 13", vec![(sizes.location_at(0) + 8, 2)], [13, 13]),
    ]
}

/// `set_to` with another mask or box.
fn changed(range: [i32; 2], change: impl Fn(&mut Draft)) -> Draft {
    let mut draft = set_to(range);
    change(&mut draft);
    draft
}

/// What of the range is left on x = 10 of location 1 after `set_to`, with the walls of y that it meets.
fn set_as(label: &'static str, draft: Draft, left: Option<[i32; 2]>) -> Answered {
    let mut records = vec![vec![0, 0, 0, 0, 0, 0], vec![0, 1, 10, 10, 0, 0], vec![0, 2, 0, 10, 0, 0]];
    let mut passes = 1;
    if let Some([low, high]) = left {
        passes = if low == 0 || high == 10 { 3 } else { 2 };
        records.push(vec![1, 1, 10, 10, low, high]);
        records.extend((low == 0).then(|| vec![1, 2, 10, 10, 0, 0]));
        records.extend((high == 10).then(|| vec![1, 3, 10, 10, 10, 10]));
    }
    let records: Vec<&[i32]> = records.iter().map(|record| &record[..]).collect();
    answered_as(label, draft, 100, passes, &records)
}

fn set() -> Vec<Answered> {
    let in_edition_1 = |value: i32| Draft { edition: Edition::One, ..set_to([value, value]) };
    let masks_d = |draft: &mut Draft| draft.switches[0].mask = 0b11;
    let of_d =
        |low: i32, high: i32| move |draft: &mut Draft| draft.switches[0].reset[..2].copy_from_slice(&[low, high]);
    let guarded =
        |low: i32, high: i32| move |draft: &mut Draft| draft.switches[0].guard[2..].copy_from_slice(&[low, high]);
    let unmasked = |draft: &mut Draft| draft.switches[0].mask = 0;
    vec![
        set_as("inside", set_to([2, 5]), Some([2, 5])),
        set_as("of two levels", set_to([2, 3]), Some([2, 3])),
        set_as("single", set_to([4, 4]), Some([4, 4])),
        set_as("single, edition 1", in_edition_1(4), Some([4, 4])),
        set_as("as wide as the invariant", set_to([0, 10]), Some([0, 10])),
        set_as("out below", set_to([-3, 4]), Some([0, 4])),
        set_as("out above", set_to([7, 15]), Some([7, 10])),
        set_as("out on both sides", set_to([-3, 15]), Some([0, 10])),
        set_as("of all levels", set_to([-LEVEL, LEVEL]), Some([0, 10])),
        set_as("onto the low wall", set_to([-5, 0]), Some([0, 0])),
        set_as("onto the high wall", set_to([10, 15]), Some([10, 10])),
        set_as("behind the low wall", set_to([-5, -1]), None),
        set_as("behind the high wall", set_to([11, 15]), None),
        set_as("behind it, single, edition 1", in_edition_1(11), None),
        set_as("d masked", changed([2, 5], masks_d), Some([2, 5])),
        // The reset box of an unmasked d cuts, and does not set.
        set_as("d unmasked, a range around its wall", changed([2, 5], of_d(8, 12)), Some([2, 5])),
        set_as("d unmasked, a range from its wall", changed([2, 5], of_d(10, 12)), Some([2, 5])),
        set_as("d unmasked, a range beside its wall", changed([2, 5], of_d(11, 12)), None),
        // The guard is asked of a masked variable too: y is 0 before.
        set_as("a guard with 0", changed([2, 5], guarded(-3, 0)), Some([2, 5])),
        set_as("a guard without 0", changed([2, 5], guarded(1, 5)), None),
        // Nothing is set: the reset box only cuts, and y is 0.
        set_as("unmasked, without 0", changed([2, 5], unmasked), None),
        set_as("unmasked, with 0", changed([-1, 5], unmasked), Some([0, 0])),
    ]
}

/// The same with location 1 cut at y = 3: what is left in the first piece, and in the second.
fn set_in_pieces(label: &'static str, range: [i32; 2], pieces: [Option<[i32; 2]>; 2]) -> Answered {
    let mut records = vec![vec![0, 0, 0, 0, 0, 0, 0], vec![0, 1, 0, 10, 10, 0, 0], vec![0, 2, 0, 0, 10, 0, 0]];
    for (piece, left) in pieces.into_iter().enumerate() {
        records.extend(left.map(|[low, high]| vec![1, 1, piece as i32, 10, 10, low, high]));
    }
    // y = 0 and y = 10 are walls of the cut variable: one piece.
    let low = pieces[0].is_some_and(|[low, _]| low == 0);
    let high = pieces[1].is_some_and(|[_, high]| high == 10);
    records.extend(low.then(|| vec![1, 2, 0, 10, 10, 0, 0]));
    records.extend(high.then(|| vec![1, 3, 0, 10, 10, 10, 10]));
    let records: Vec<&[i32]> = records.iter().map(|record| &record[..]).collect();
    let passes = if low || high { 3 } else { 2 };
    answered_as(label, cut_at_3(set_to(range)), 100, passes, &records)
}

fn cut_at_3(draft: Draft) -> Draft {
    Draft { cuts: vec![(1, 1, 3)], ..draft }
}

fn in_pieces() -> Vec<Answered> {
    vec![
        set_in_pieces("on both pieces", [2, 5], [Some([2, 3]), Some([3, 5])]),
        set_in_pieces("on the value alone", [3, 3], [Some([3, 3]), Some([3, 3])]),
        set_in_pieces("up to the value", [1, 3], [Some([1, 3]), Some([3, 3])]),
        set_in_pieces("from the value", [3, 7], [Some([3, 3]), Some([3, 7])]),
        set_in_pieces("below the value", [1, 2], [Some([1, 2]), None]),
        set_in_pieces("above the value", [4, 5], [None, Some([4, 5])]),
        set_in_pieces("out on both sides", [-9, 19], [Some([0, 3]), Some([3, 10])]),
    ]
}

/// The hand-filled cup below the rim.
fn by_hand() -> Vec<Answered> {
    let records: [&[i32]; 4] = [&[0, 0, 0, 0, 0, 0], &[0, 2, 0, 10, 0, 0], &[1, 0, 0, 0, 2, 5], &[1, 2, 4, 10, 0, 0]];
    vec![answered_as("a cup filled by hand", hand_filled(BY_HAND, OVER_THE_RIM), 100, 4, &records)]
}

/// Plants whose ranges lead to what is forbidden, with code and passes.
fn forbidden() -> Vec<(&'static str, Draft, u64, u64)> {
    let with = |range: [i32; 2], y: [i32; 2]| Draft { forbidden: vec![(1, vec![0, 10, y[0], y[1]])], ..set_to(range) };
    vec![
        ("strictly inside the range", with([2, 5], [3, 4]), 101, 2),
        ("one level inside it", with([2, 4], [3, 3]), 101, 2),
        ("its low", with([2, 5], [0, 2]), 101, 2),
        ("its high", with([2, 5], [5, 10]), 101, 2),
        ("below it", with([2, 5], [0, 1]), 100, 2),
        ("above it", with([2, 5], [6, 10]), 100, 2),
        ("in what the wall cuts off", with([7, 15], [11, 15]), 100, 3),
        ("single, beside it", with([4, 4], [5, 5]), 100, 2),
        ("in the second piece", cut_at_3(with([2, 5], [4, 5])), 101, 2),
        ("in the first piece", cut_at_3(with([2, 5], [2, 2])), 101, 2),
        ("beside both pieces", cut_at_3(with([2, 5], [6, 7])), 100, 2),
        ("a dose of one more", hand_filled([2, 6], OVER_THE_RIM), 101, 2),
        ("a dose up to the rim", hand_filled(BY_HAND, [10, 20, 0, 8]), 101, 2),
        ("at the stirrer", hand_filled(BY_HAND, AT_THE_STIRRER), 101, 2),
        ("at the stirrer, the least dose", hand_filled([2, 2], AT_THE_STIRRER), 100, 3),
        ("at the stirrer, the most", hand_filled([5, 5], AT_THE_STIRRER), 100, 4),
        ("at the stirrer, beside its dose", hand_filled([4, 5], AT_THE_STIRRER), 100, 4),
    ]
}

/// The table of `set_to`, with this box of y on x = 10 of location 1.
fn table_with(y: Option<[i32; 2]>) -> Vec<i32> {
    let location_0 = [[1, 0, 0, 0, 0], [1, 10, 10, 0, 0], [1, 0, 10, 0, 0], [0; 5]].concat();
    let face_1 = y.map_or(vec![0; 5], |[low, high]| vec![1, 10, 10, low, high]);
    [location_0, vec![0; 5], face_1, vec![0; 10]].concat()
}

/// The same of location 1 cut at y = 3, of both pieces.
fn table_of_pieces(pieces: [Option<[i32; 2]>; 2]) -> Vec<i32> {
    let location_0 = [[1, 0, 0, 0, 0], [1, 10, 10, 0, 0], [1, 0, 10, 0, 0], [0; 5]].concat();
    let face_1 = pieces.map(|piece| piece.map_or(vec![0; 5], |[low, high]| vec![1, 10, 10, low, high])).concat();
    [location_0, vec![0; 10], face_1, vec![0; 20]].concat()
}

fn tables() -> Vec<OfTable> {
    let of = |label, range, y, number| (label, set_to(range), table_with(y), number);
    let pieces =
        |label, first, second, number| (label, cut_at_3(set_to([2, 5])), table_of_pieces([first, second]), number);
    let inside = Draft { forbidden: vec![(1, vec![0, 10, 3, 4])], ..set_to([2, 5]) };
    vec![
        of("the whole range", [2, 5], Some([2, 5]), 100),
        of("wider", [2, 5], Some([1, 7]), 100),
        of("its low alone", [2, 5], Some([2, 2]), 33),
        of("its high alone", [2, 5], Some([5, 5]), 33),
        of("all but its low", [2, 5], Some([3, 5]), 33),
        of("all but its high", [2, 5], Some([2, 4]), 33),
        of("what is strictly inside", [2, 5], Some([3, 4]), 33),
        of("nothing", [2, 5], None, 33),
        of("a range outside, and nothing", [11, 15], None, 100),
        of("a range outside, and something", [11, 15], Some([2, 5]), 100),
        of("past the wall", [7, 15], Some([7, 11]), 32),
        ("touched inside", inside.clone(), table_with(Some([2, 5])), 34),
        ("touched inside, and the low alone", inside, table_with(Some([2, 2])), 33),
        pieces("both pieces", Some([2, 3]), Some([3, 5]), 100),
        pieces("the first alone", Some([2, 3]), None, 33),
        pieces("the second alone", None, Some([3, 5]), 33),
        pieces("the value in the first alone", Some([2, 3]), Some([4, 5]), 33),
        pieces("the value in the second alone", Some([2, 2]), Some([3, 5]), 33),
        pieces("the lows alone", Some([2, 2]), Some([3, 3]), 33),
        pieces("the first past the value", Some([2, 5]), Some([3, 5]), 32),
    ]
}

/// Files that begin like those of edition 2, and their numbers.
fn heads() -> Vec<(&'static str, Vec<u8>, u32)> {
    let ranged = model_file(&hand_filled(BY_HAND, OVER_THE_RIM).words());
    let behind = |head: &[u8]| [head, &ranged[HEAD_FIELD_BYTES..]].concat();
    let counts = [2, 2, 2, 1];
    vec![
        ("tag 9", behind(&field(HEAD_2, &counts)), 100),
        ("tag 1", behind(&field(HEAD, &counts)), 16),
        ("tag 9 and three counts", behind(&field(HEAD_2, &counts[..3])), 1),
        ("tag 9 and five words", behind(&field(HEAD_2, &[2, 2, 2, 1, 2])), 1),
        ("tag 9 and no words", behind(&field(HEAD_2, &[])), 1),
        ("tag 9 alone", vec![HEAD_2], 1),
        ("tag 9 without its counts", ranged[..3].to_vec(), 1),
        ("tag 9 short of one byte", ranged[..HEAD_FIELD_BYTES - 1].to_vec(), 1),
        ("tag 9 and nothing else", ranged[..HEAD_FIELD_BYTES].to_vec(), 6),
        ("tag 9 twice", behind(&[field(HEAD_2, &counts), field(HEAD_2, &counts)].concat()), 6),
        ("tag 1, then tag 9", behind(&[field(HEAD, &counts), field(HEAD_2, &counts)].concat()), 6),
        ("tag 9 and n 7", behind(&field(HEAD_2, &[7, 2, 2, 1])), 2),
        ("tag 9 and L 65", behind(&field(HEAD_2, &[2, 65, 2, 1])), 3),
        ("tag 9 and E 129", behind(&field(HEAD_2, &[2, 2, 129, 1])), 4),
        ("tag 9 and B -1", behind(&field(HEAD_2, &[2, 2, 2, -1])), 4),
        ("tag 9 and one location fewer", behind(&field(HEAD_2, &[2, 1, 2, 1])), 6),
        ("tag 9 short of its last byte", ranged[..ranged.len() - 1].to_vec(), 7),
        ("tag 9 and a byte more", [&ranged[..], &[0]].concat(), 8),
        ("tag 9 and tag 9 at its end", [&ranged[..], &[HEAD_2]].concat(), 8),
        ("tag 9 and half a cut at its end", [&ranged[..], &[8, 0]].concat(), 46),
    ]
}

impl Comparison {
    pub(crate) fn fixed_resets(&mut self) -> Result<(), Difference> {
        self.edition_words()?;
        self.first_tags()?;
        self.heads_of_files()?;
        self.resets_in_both_editions()?;
        self.both_written_and_read()?;
        for case in set().into_iter().chain(in_pieces()).chain(by_hand()) {
            self.answered_by_hand(&case)?;
        }
        self.ranges_that_touch()?;
        for (label, draft, table, number) in tables() {
            self.checks_give(label, &draft, &table, number)?;
        }
        Ok(())
    }

    /// Question 43: after 5 of the head and 2 to 4, before 5 of the whole and all that comes after.
    fn edition_words(&mut self) -> Result<(), Difference> {
        for (list, number) in short_lists() {
            self.asked_of_words(&format!("{list:?}"), &list, number, 0)?;
        }
        let p = plant_p().words();
        for word in EDGES.into_iter().chain(NO_EDITION) {
            let label = format!("P of edition {word}");
            let due = if word == 1 || word == 2 { 100 } else { 43 };
            let mut words = p.clone();
            words[EDITION_AT] = word;
            self.asked_of_words(&label, &words, due, 44)?;
            // One word short, and short of all records.
            let short = if due == 100 { 5 } else { 43 };
            self.asked_of_words(&label, &words[..P_WORDS - 1], short, 0)?;
            self.asked_of_words(&label, &words[..P_LOCATION], short, 0)?;
            self.asked_of_words(&label, &words[..P_LOCATION - 1], 5, 0)?;
            for (place, bad, number) in BAD_RECORDS_OF_P {
                let mut words = words.clone();
                words[place] = bad;
                self.asked_of_words(&label, &words, if due == 100 { number } else { 43 }, 0)?;
            }
            for (place, bad, number) in [(0, 7, 2), (1, 0, 3), (2, -1, 4), (3, 65, 4)] {
                let mut words = words.clone();
                words[place] = bad;
                self.asked_of_words(&label, &words, number, 0)?;
            }
        }
        // The edition is the fifth word and no other.
        let one = [1, 1, 0, 0, 1, 0, 9, 1, 1, 0, 0, 0, -1, 0];
        self.gives("n 1", Call::Ceiling, &Input::of_model(&one), &Lengths::default(), (100, 2))?;
        for call in Call::on_words() {
            let input = Input::of_model(&[2, 2, 2, 2, 0]);
            self.gives("four counts of 2", call, &input, &Lengths::default(), (43, 0))?;
        }
        Ok(())
    }

    /// Every first byte: 1 and 9 begin a model file, with the edition that they name.
    fn first_tags(&mut self) -> Result<(), Difference> {
        let ranged = hand_filled(BY_HAND, OVER_THE_RIM).words();
        for (words, in_edition_1) in [(plant_p().words(), 100), (ranged, 16)] {
            for tag in 0..=255 {
                let mut file = model_file(&words);
                file[0] = tag;
                let number = match tag {
                    HEAD => in_edition_1,
                    HEAD_2 => 100,
                    _ => 1,
                };
                self.file_gives(&format!("first tag {tag}"), &file, words.len(), number)?;
            }
        }
        Ok(())
    }

    fn heads_of_files(&mut self) -> Result<(), Difference> {
        let words = hand_filled(BY_HAND, OVER_THE_RIM).words().len();
        for (label, file, number) in heads() {
            self.file_gives(label, &file, words, number)?;
        }
        Ok(())
    }

    /// decide, check and read_model on a file. What is left of a word buffer: the words, with the edition of the first
    /// tag; as it was after 1 to 5; else zeros.
    fn file_gives(&mut self, label: &str, file: &[u8], words: usize, number: u32) -> Result<(), Difference> {
        if number > 5 {
            self.asked_of_file(label, file, words, number)?;
        } else {
            self.decide_gives(label, file, MOST_ROOM, 9, answer(number as u64, 0))?;
            self.check_gives(label, file, &field(6, &[0]), number as u64)?;
            self.gives(label, Call::ReadModel, &Input::of_file(file), &Lengths::of_words(words), (number, 0))?;
        }
        Ok(())
    }

    /// Question 16 and its neighbours, in words and in files.
    fn resets_in_both_editions(&mut self) -> Result<(), Difference> {
        let model = hand_filled(BY_HAND, OVER_THE_RIM).words();
        let sizes = Plant::from_words(&model).expect("an example passes its questions").sizes;
        // Faces x: 1 + 8 each; faces y: 1 + 20 each; of two locations.
        let ceiling = 2 * (2 * 9 + 2 * 21);
        for (label, changes, numbers) in switches() {
            for (edition, number) in Edition::BOTH.into_iter().zip(numbers) {
                let mut words = model.clone();
                words[EDITION_AT] = edition.word();
                changes.iter().for_each(|&(place, word)| words[place] = word);
                let label = format!("{label}, {edition:?}");
                self.asked_of_words(&label, &words, number, ceiling)?;
                self.asked_of_file(&label, &file_of_words(&sizes, &words), words.len(), number)?;
            }
        }
        Ok(())
    }

    /// Both editions of a model: the file's first tag, the words that it reads as, the largest of both.
    fn both_written_and_read(&mut self) -> Result<(), Difference> {
        let largest = all_cut(large_grid(6, 3));
        for (edition, tag) in Edition::BOTH.into_iter().zip([HEAD, HEAD_2]) {
            for draft in [plant_p(), largest.clone(), set_to([4, 4])] {
                let label = format!("read in {edition:?}");
                let words = Draft { edition, ..draft }.words();
                let file = model_file(&words);
                if file[0] != tag || words[EDITION_AT] != edition.word() {
                    return Err(unwanted(&label, tag, file[0]));
                }
                let input = Input::of_file(&file);
                let exact = Lengths::of_words(words.len());
                let left = self.gives(&label, Call::ReadModel, &input, &exact, (100, words.len() as u64))?;
                if left.words() != words {
                    return Err(unwanted(&label, words, left.words()));
                }
                let short = Lengths::of_words(words.len() - 1);
                self.gives(&label, Call::ReadModel, &input, &short, (5, 0))?;
            }
        }
        let words = largest.words().len();
        if words != MOST_MODEL_WORDS {
            return Err(unwanted("the largest model", MOST_MODEL_WORDS, words));
        }
        Ok(())
    }

    /// Answers of plants with a forbidden box, and what check says of the table at rest: accepted of a safe one, 34 of
    /// an unknown one.
    fn ranges_that_touch(&mut self) -> Result<(), Difference> {
        for (label, draft, code, passes) in forbidden() {
            let words = draft.words();
            let model = model_file(&words);
            let plant = Plant::from_words(&words).expect("an example passes its questions");
            self.decide_gives(label, &model, plant.table_file_room(), 9, answer(code, passes))?;
            let size = plant.table_words();
            let lengths = Lengths::of_table(size);
            let input = Input::of_model(&words).under(9);
            for call in [Call::Analyse, Call::Desk] {
                self.gives(label, call, &input, &lengths, (code as u32, passes))?;
            }
            let mut rest = vec![0; size];
            crate::inputs::generate::close(&plant, &mut rest, 100);
            self.checks_give(label, &draft, &rest, if code == 100 { 100 } else { 34 })?;
        }
        Ok(())
    }
}
