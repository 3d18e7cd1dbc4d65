//! The fixed cases of written model files (document 02, T-01): files worked out by hand, byte by byte, the lengths of
//! others, the order of the questions, and the sample models written again.

use crate::c_calls::exports::Call;
use crate::c_calls::slices::{Input, Lengths};
use crate::fixed::quotes::cut;
use crate::fixed::starts::unwanted;
use crate::held::compare::{hex, Comparison, Difference};
use crate::held::writing::written_as;
use crate::inputs::draft::{Draft, LocationDraft};
use crate::inputs::examples::{
    all_cut, at_rest, dosing, hand_filled, large_grid, plant_p, plant_p_cut, three_tanks, two_tank, water_level,
    water_level_cut, widest, BY_HAND, OVER_THE_RIM,
};
use crate::inputs::samples;
use crate::reference::files::MOST_MODEL_BYTES;
use crate::reference::host::MOST_MODEL_WORDS;
use crate::reference::model::{Edition, Plant, EDITION_AT, LEVEL, RATE, SWITCH_HEAD};

/// Plant P without its edition and its cut. Its file has these bytes after the first tag: the head's length and four
/// words, location 0 in 13 words, the forbidden box in five.
const P: [i32; 22] = [2, 1, 0, 1, 0, 10, 0, 10, 1, 1, 1, 2, 1, 0, 0, 2, 5, 0, 9, 10, 0, 4];
const P_BYTES: &str = "0010 00000002 00000001 00000000 00000001 \
    02 0034 00000000 0000000a 00000000 0000000a 00000001 00000001 00000001 00000002 \
    00000001 00000000 00000000 00000002 00000005 \
    04 0014 00000000 00000009 0000000a 00000000 00000004";

/// The same of two locations of one variable, with a switch from x = 9 of the first to x = 9 of the second.
const TWO: [i32; 28] = [1, 2, 1, 0, 0, 9, 1, 1, 1, 0, 3, 0, 9, -1, -1, 0, 0, 0, 0, 1, 0, 1, 1, 0, 9, 9, 0, 9];
const TWO_BYTES: &str = "0010 00000001 00000002 00000001 00000000 \
    02 001c 00000000 00000009 00000001 00000001 00000001 00000000 00000003 \
    02 001c 00000000 00000009 ffffffff ffffffff 00000000 00000000 00000000 \
    03 0028 00000000 00000001 00000000 00000001 00000001 00000000 00000009 00000009 00000000 00000009";

/// The smallest model there is: one location of one variable, all zeros.
const SMALLEST: [i32; 11] = [1, 1, 0, 0, 0, 0, 0, 0, 0, 0, 0];
const SMALLEST_BYTES: &str = "0010 00000001 00000001 00000000 00000000 \
    02 001c 00000000 00000000 00000000 00000000 00000000 00000000 00000000";

/// One location with the lowest and the highest numbers there are, and a forbidden box of -2..0.
const ENDS: [i32; 14] = [1, 1, 0, 1, -LEVEL, LEVEL, -RATE, RATE, 1, -LEVEL, -1, 0, -2, 0];
const ENDS_BYTES: &str = "0010 00000001 00000001 00000000 00000001 \
    02 001c fff0bdc0 000f4240 fffffc18 000003e8 00000001 fff0bdc0 ffffffff \
    04 000c 00000000 fffffffe 00000000";

/// A file's bytes from their digits.
fn bytes(digits: &str) -> Vec<u8> {
    let digits: Vec<char> = digits.chars().filter(|digit| !digit.is_whitespace()).collect();
    let byte = |pair: &[char]| pair.iter().fold(0, |sum, digit| 16 * sum + digit.to_digit(16).expect("a digit") as u8);
    digits.chunks_exact(2).map(byte).collect()
}

/// A model's words and its file: counts, records and their bytes, then the words of the cuts and their bytes. The
/// edition stands behind the four counts, and in the file's first tag.
fn by_hand(edition: i32, (words, file): (&[i32], &str), (cuts, fields): (&[i32], &str)) -> (Vec<i32>, Vec<u8>) {
    let tag = if edition == 1 { "01" } else { "09" };
    ([&words[..4], &[edition], &words[4..], cuts].concat(), bytes(&[tag, file, fields].concat()))
}

/// Models with their files, worked out by hand.
pub fn files() -> Vec<(&'static str, Vec<i32>, Vec<u8>)> {
    let (p, two, ends) = ((&P[..], P_BYTES), (&TWO[..], TWO_BYTES), (&ENDS[..], ENDS_BYTES));
    let (uncut, none) = ((&[-1, 0][..], ""), (&[-1, 0, -1, 0][..], ""));
    let at_5 = (&[0, 5][..], "08 000c 00000000 00000000 00000005");
    let lowest = (&[0, 1 - LEVEL][..], "08 000c 00000000 00000000 fff0bdc1");
    let first = (&[0, 1, -1, 0][..], "08 000c 00000000 00000000 00000001");
    let second = (&[-1, 0, 0, 8][..], "08 000c 00000001 00000000 00000008");
    let both = (&[0, 1, 0, 8][..], "08 000c 00000000 00000000 00000001 08 000c 00000001 00000000 00000008");
    [
        ("P", by_hand(1, p, uncut)),
        ("P in edition 2", by_hand(2, p, uncut)),
        ("P cut at x = 5", by_hand(1, p, at_5)),
        ("P cut at x = 5, in edition 2", by_hand(2, p, at_5)),
        ("the smallest", by_hand(1, (&SMALLEST, SMALLEST_BYTES), uncut)),
        ("the smallest, in edition 2", by_hand(2, (&SMALLEST, SMALLEST_BYTES), uncut)),
        ("the ends of all ranges", by_hand(1, ends, uncut)),
        ("the ends of all ranges, cut at the lowest value", by_hand(2, ends, lowest)),
        ("two locations", by_hand(1, two, none)),
        ("two locations, the first cut", by_hand(1, two, first)),
        ("two locations, the second cut", by_hand(2, two, second)),
        ("two locations, both cut", by_hand(1, two, both)),
    ]
    .map(|(label, (words, file))| (label, words, file))
    .to_vec()
}

/// 64 locations of one variable, 0..2, of which the first so many are cut.
fn sixty_four(cuts: usize) -> Draft {
    let location = LocationDraft { invariant: vec![0, 2], rates: vec![0, 0], start: None };
    let cuts: Vec<_> = (0..cuts).map(|l| (l, 0, 1)).collect();
    Draft { n: 1, locations: vec![location; 64], cuts, ..Draft::default() }
}

/// Models with the lengths of their files: 19 bytes, 7 + 24n for a location, 27 + 16n for a switch, 7 + 8n for a
/// forbidden box, 15 for a cut.
pub fn lengths() -> Vec<(&'static str, Draft, usize)> {
    vec![
        ("P", plant_p(), 19 + 55 + 23),
        ("P cut", plant_p_cut(), 19 + 55 + 23 + 15),
        ("n 1 at rest", at_rest(1), 50),
        ("n 2 at rest", at_rest(2), 74),
        ("n 3 at rest", at_rest(3), 98),
        ("n 4 at rest", at_rest(4), 122),
        ("n 5 at rest", at_rest(5), 146),
        ("n 6 at rest", at_rest(6), 170),
        ("64 locations of one variable", sixty_four(0), 19 + 64 * 31),
        ("64 locations, the first cut", sixty_four(1), 19 + 64 * 31 + 15),
        ("64 locations, all but the last cut", sixty_four(63), 19 + 64 * 31 + 63 * 15),
        ("64 locations, all cut", sixty_four(64), 19 + 64 * 46),
        ("dosing", dosing(5_000), 19 + 55 + 59 + 23),
        ("a cup filled by hand", hand_filled(BY_HAND, OVER_THE_RIM), 19 + 2 * 55 + 2 * 59 + 23),
        ("the water level", water_level(20), 19 + 4 * 55 + 4 * 59 + 4 * 23),
        ("the water level, cut", water_level_cut(), 567 + 2 * 15),
        ("three tanks", three_tanks(false), 19 + 3 * 79 + 2 * 75 + 31),
        ("three tanks, cut", three_tanks(true), 437 + 15),
        ("two tanks", two_tank(59), 19 + 36 * 55 + 90 * 59 + 6 * 23),
        ("the largest", widest(), 28_947),
        ("the largest, its first location cut", cut(widest(), &[(0, 0, 0)]), 28_947 + 15),
        ("the largest, its last location cut", cut(widest(), &[(63, 5, LEVEL - 1)]), 28_947 + 15),
        ("the largest, all cut", all_cut(widest()), MOST_MODEL_BYTES),
        ("the largest grid, all cut", all_cut(large_grid(6, 3)), MOST_MODEL_BYTES),
    ]
}

/// Changes to the words of a cup filled by hand, and the number of each.
fn bad_words() -> Vec<(Vec<(usize, i32)>, u32)> {
    let words = hand_filled(BY_HAND, OVER_THE_RIM).words();
    let sizes = Plant::from_words(&words).expect("an example passes its questions").sizes;
    let (location, switch) = (sizes.location_at(1), sizes.switch_at(1));
    vec![
        (vec![(0, 7)], 2),
        (vec![(1, 65)], 3),
        (vec![(2, 129)], 4),
        (vec![(3, -1)], 4),
        (vec![(EDITION_AT, 3)], 43),
        (vec![(1, 3)], 5),
        (vec![(location, LEVEL + 1)], 11),
        (vec![(location + 4, RATE + 1)], 12),
        (vec![(location + 8, 2)], 13),
        (vec![(switch, 2)], 14),
        (vec![(sizes.reset_at(1, 0), LEVEL + 1)], 15),
        (vec![(switch + SWITCH_HEAD - 1, 2), (sizes.reset_at(1, 1) + 1, 1)], 16),
        (vec![(switch + SWITCH_HEAD + 2, -1)], 17),
        (vec![(switch + 4, 1)], 18),
        (vec![(sizes.forbidden_at(0), 2)], 19),
        (vec![(sizes.cut_at(0), 2)], 46),
        (vec![(sizes.cut_at(1), 0)], 46),
        (vec![(sizes.cut_at(1) + 1, 1)], 46),
    ]
}

impl Comparison {
    pub(crate) fn fixed_written(&mut self) -> Result<(), Difference> {
        for (label, words, file) in files() {
            let found = self.written_by_hand(label, &words, file.len())?;
            if found != file {
                return Err(unwanted(label, hex(&file), hex(&found)));
            }
        }
        // Words that pass in edition 1 pass in edition 2 too.
        for (label, draft, bytes) in lengths() {
            for edition in Edition::BOTH.into_iter().filter(|&edition| draft.edition <= edition) {
                self.written_by_hand(label, &Draft { edition, ..draft.clone() }.words(), bytes)?;
            }
        }
        self.asked_before_40()?;
        self.samples_written_again()
    }

    /// A model whose file has so many bytes, in buffers that are too short, just long enough and longer, with words
    /// behind it and without; then as a program uses the calls. Gives the file.
    fn written_by_hand(&mut self, label: &str, words: &[i32], bytes: usize) -> Result<Vec<u8>, Difference> {
        let longer = [words, &[-1, 0, 1]].concat();
        let mut file = Vec::new();
        for list in [words, &longer] {
            for length in [0, 1, bytes - 1, bytes + 1, MOST_MODEL_BYTES + 1, bytes] {
                let wanted = if length < bytes { (40, 0) } else { (100, bytes as u64) };
                let (input, room) = (Input::of_model(list), Lengths::of_file(length));
                file = self.gives(label, Call::WriteModel, &input, &room, wanted)?.file().to_vec();
            }
        }
        let plant = Plant::from_words(words).expect("an example passes its questions");
        self.program_case(&plant, 3)?;
        Ok(file)
    }

    /// Every question of a model comes before 40, whatever the buffer's length.
    fn asked_before_40(&mut self) -> Result<(), Difference> {
        let model = hand_filled(BY_HAND, OVER_THE_RIM).words();
        for (changes, number) in bad_words() {
            let mut words = model.clone();
            changes.iter().for_each(|&(place, word)| words[place] = word);
            let input = Input::of_model(&words);
            for length in [0, 1, 269, 270, MOST_MODEL_BYTES] {
                self.gives("a bad word", Call::WriteModel, &input, &Lengths::of_file(length), (number, 0))?;
            }
        }
        Ok(())
    }

    /// Every sample model that reads is written again, byte for byte.
    fn samples_written_again(&mut self) -> Result<(), Difference> {
        for (name, file) in samples::all() {
            let room = Lengths::of_words(MOST_MODEL_WORDS);
            let read = self.call(name, Call::ReadModel, &Input::of_file(&file), &room, Default::default())?;
            self.counts.fixed += 1;
            if (read.number == 100) == name.starts_with("refused") {
                return Err(unwanted(name, "a sample that reads, or is refused by its name", read.number));
            }
            if read.number == 100 {
                written_as(self, &read.words()[..read.value() as usize], &file, 1)?;
                self.counts.fixed += 2;
            }
        }
        Ok(())
    }
}
