//! The fixed cases of the quote (document 02, T-07): quotes worked out by hand, each held to answers of all calls, and
//! plants whose answer takes all that is quoted.

use crate::c_calls::exports::Call;
use crate::c_calls::slices::{Input, Lengths};
use crate::fixed::documents::answer;
use crate::fixed::starts::unwanted;
use crate::held::compare::{written_table, Comparison, Difference};
use crate::inputs::draft::{Draft, LocationDraft};
use crate::inputs::examples::{
    all_cut, at_rest, dosing, face_by_face, level_by_level, plant_p, plant_p_cut, three_tanks, widest,
};
use crate::reference::files::model_file;
use crate::reference::model::Plant;
use crate::reference::quote::Quote;

/// A plant with its quote: words, bytes and ceiling.
type Quoted = (&'static str, Draft, [u64; 3]);

pub(crate) fn cut(draft: Draft, cuts: &[(usize, usize, i32)]) -> Draft {
    Draft { cuts: cuts.to_vec(), ..draft }
}

/// Locations of these invariants, without a start.
fn locations(invariants: &[&[i32]]) -> Draft {
    let location = |invariant: &&[i32]| LocationDraft {
        invariant: invariant.to_vec(),
        rates: vec![0; invariant.len()],
        start: None,
    };
    Draft { n: invariants[0].len() / 2, locations: invariants.iter().map(location).collect(), ..Draft::default() }
}

/// Of P 4 × (1 + 10); cut, 2 × (1 + 10) on the walls of the cut variable and, wherever the value lies, 2 × (2 + 10) on
/// the others. A location of 4 by 6 has 2 × (1 + 6) and 2 × (1 + 4); cut in y, 2 × (2 + 6) for the first. With any
/// cut the fields of all locations have 31 bytes in place of 27.
fn quotes_of_two_variables() -> Vec<Quoted> {
    let two = || locations(&[&[0, 10, 0, 10], &[0, 4, 0, 6]]);
    vec![
        ("P", plant_p(), [20, 115, 44]),
        ("P cut at x = 5", plant_p_cut(), [40, 255, 46]),
        ("P cut at x = 1", cut(plant_p(), &[(0, 0, 1)]), [40, 255, 46]),
        ("P cut at y = 9", cut(plant_p(), &[(0, 1, 9)]), [40, 255, 46]),
        ("two locations", two(), [40, 7 + 8 * 27, 44 + 24]),
        ("two locations, the first cut", cut(two(), &[(0, 0, 5)]), [60, 7 + 12 * 31, 46 + 24]),
        ("two locations, the second cut", cut(two(), &[(1, 1, 2)]), [60, 7 + 12 * 31, 44 + 26]),
        ("two locations, both cut", cut(two(), &[(0, 1, 1), (1, 0, 3)]), [80, 7 + 16 * 31, 46 + 26]),
        ("x of width 0", locations(&[&[7, 7, -5, 5]]), [20, 115, 2 * 11 + 2]),
        ("x of width 0, y cut", cut(locations(&[&[7, 7, -5, 5]]), &[(0, 1, 0)]), [40, 255, 2 * 12 + 2]),
    ]
}

/// Of one variable each face counts 1, and a second piece is never present. Of three, 0..10, a location has
/// 6 × (1 + 20); cut, 2 × (1 + 20) and 4 × (2 + 10 + 2 × 10). Of width 0 each face counts 1.
fn quotes_of_other_sizes() -> Vec<Quoted> {
    let one = || locations(&[&[0, 10]]);
    let two = || locations(&[&[0, 10], &[-3, 400]]);
    vec![
        ("n 1", one(), [6, 45, 2]),
        ("n 1, cut", cut(one(), &[(0, 0, 5)]), [12, 7 + 4 * 23, 2]),
        ("n 1, the first of two cut", cut(two(), &[(0, 0, 9)]), [18, 7 + 6 * 23, 4]),
        ("n 1, the second of two cut", cut(two(), &[(1, 0, 399)]), [18, 7 + 6 * 23, 4]),
        ("three tanks", three_tanks(false), [126, 7 + 18 * 35, 3 * 126]),
        ("three tanks, one location cut", three_tanks(true), [168, 7 + 24 * 39, 2 * 126 + 170]),
        ("n 1 at rest", at_rest(1), [6, 45, 2]),
        ("n 2 at rest", at_rest(2), [20, 115, 4]),
        ("n 3 at rest", at_rest(3), [42, 217, 6]),
        ("n 4 at rest", at_rest(4), [72, 351, 8]),
        ("n 5 at rest", at_rest(5), [110, 517, 10]),
        ("n 6 at rest", at_rest(6), [156, 715, 12]),
    ]
}

/// Of the largest plant each face has 1 + 5 × 2,000,000; a cut adds 10 × (1 + 4 × 2,000,000) to its location.
fn largest_quotes() -> Vec<Quoted> {
    vec![
        ("the largest plant", widest(), [9_984, 45_319, 7_680_000_768]),
        ("the largest plant, all cut", all_cut(widest()), [19_968, 96_775, 12_800_001_408]),
        (
            "the largest plant, its last location cut",
            cut(widest(), &[(63, 5, 999_999)]),
            [10_140, 7 + 780 * 63, 7_760_000_778],
        ),
    ]
}

/// Plants with the passes that they take, the ceiling, and whether the file of their table is as long as quoted.
///
/// Without cuts the ceiling can be reached, with 10 passes by the one of two variables. Cut at y = 1 that plant has a
/// ceiling of 12, and no plant comes nearer: both pieces of a face hold the cut's value and get it in one pass, so
/// that each face of x costs one of the passes quoted. A file is as long as quoted with every face present, and never
/// where a cut is: the second pieces on the cut variable's walls are always absent.
fn taken_whole() -> Vec<(&'static str, Draft, u32, u64, bool)> {
    let row: Vec<[i32; 2]> = (0..64).map(|l| [10 * l, 10 * l + 9]).collect();
    let faces: Vec<(usize, usize)> = (0..64).flat_map(|l| [(l, 1), (l, 0)]).collect();
    let row = face_by_face(&row, &faces);
    let one = || face_by_face(&[[0, 2]], &[(0, 1), (0, 0)]);
    vec![
        ("both faces of one location", one(), 2, 2, true),
        ("both faces of one location, cut", cut(one(), &[(0, 0, 1)]), 2, 2, false),
        ("the faces of 64 locations", row.clone(), 128, 128, true),
        ("the faces of 64 locations, cut", all_cut(row), 128, 128, false),
        ("level by level", level_by_level(), 10, 10, true),
        ("level by level, cut", cut(level_by_level(), &[(0, 1, 1)]), 10, 12, false),
        ("dosing", Draft { forbidden: vec![], ..dosing(0) }, 10_001, 10_006, true),
    ]
}

/// All plants that are quoted, of whatever size.
pub fn quotes() -> Vec<Quoted> {
    [quotes_of_two_variables(), quotes_of_other_sizes(), largest_quotes()].concat()
}

impl Comparison {
    pub(crate) fn fixed_quotes(&mut self) -> Result<(), Difference> {
        for (label, draft, quote) in quotes() {
            let words = draft.words();
            let plant = Plant::from_words(&words).expect("an example passes its questions");
            self.quote_gives(label, &words, quote)?;
            for limit in [0, 1, u32::MAX] {
                self.program_case(&plant, limit)?;
            }
        }
        for (label, draft, passes, ceiling, longest) in taken_whole() {
            self.taken_whole(label, &draft, passes, (ceiling, longest))?;
        }
        Ok(())
    }

    fn quote_gives(&mut self, label: &str, words: &[i32], wanted: [u64; 3]) -> Result<(), Difference> {
        let input = Input::of_model(words);
        let Quote { words, bytes, ceiling } =
            self.gives(label, Call::Quote, &input, &Lengths::default(), (100, 0))?.quote();
        if [words, bytes, ceiling] != wanted {
            return Err(unwanted(label, wanted, [words, bytes, ceiling]));
        }
        Ok(())
    }

    /// A plant under the limits of its ceiling, of the passes that it takes, and of one less.
    fn taken_whole(
        &mut self,
        label: &str,
        draft: &Draft,
        passes: u32,
        (ceiling, longest): (u64, bool),
    ) -> Result<(), Difference> {
        let words = draft.words();
        let (plant, file) = (Plant::from_words(&words).expect("an example passes its questions"), model_file(&words));
        let quote = self.quote_of(&Input::of_model(&words))?;
        for (limit, code, k) in [(ceiling as u32, 100, passes), (passes, 100, passes), (passes - 1, 102, passes - 1)] {
            let wanted = answer(code, k as u64);
            let buffer = self.decide_gives(label, &file, quote.bytes as usize, limit, wanted)?;
            let as_long = written_table(&plant, &buffer).len() as u64 == quote.bytes;
            if quote.ceiling != ceiling || (code == 100 && as_long != longest) {
                return Err(unwanted(label, (ceiling, longest), (quote, as_long)));
            }
            self.program_case(&plant, limit)?;
        }
        Ok(())
    }
}
