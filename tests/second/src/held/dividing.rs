//! A cut never hurts (document 02, T-12), held of the tested calls on what they themselves gave: if a model is safe, it
//! is safe with further cuts, under every limit of at least its ceiling, and unknown under none; and every table that is
//! accepted for the first, divided into the pieces, is accepted for the second. The second's table lies inside the
//! first's, divided, and its quote is nowhere less. What is held is `pairing`'s.
//!
//! These cases have random numbers of their own, so that what the others draw does not hang on them.

use crate::held::compare::{Comparison, Difference};
use crate::held::pairing::{quoted, Compared, Kind, Pair};
use crate::inputs::generate::random_limit;
use crate::inputs::refining::{kept_apart, refined, to_refine, FURTHER};
use crate::reference::finer::finer;
use crate::reference::model::Plant;

/// Which part of the models gets further cuts.
const CUT_PART: (u64, u64) = (1, 3);

/// One such case in so many is made so that cuts keep something apart.
const APART_ONE_IN: u64 = 4;
const APART: &str = "cuts that keep something apart";

/// What must come up among the pairs, and how often under the full counts.
pub const REFINED: [(&str, u64); 22] = [
    (FURTHER[0], 400),
    (FURTHER[1], 1_000),
    (FURTHER[2], 700),
    (FURTHER[3], 700),
    (APART, 1_000),
    ("the same plant", 1_000),
    ("one cut more", 1_500),
    ("several cuts more", 1_000),
    ("the first with a cut, and one more", 300),
    ("the first without a cut", 3_000),
    ("safe on words", 2_500),
    ("safe in files", 2_500),
    ("under the ceiling as the limit", 2_500),
    ("its own table another than the first's", 120),
    ("its own table the first's", 2_000),
    ("fewer passes than the first", 8),
    ("more passes than the first", 30),
    ("safe under the first's passes as the limit", 2_500),
    ("unfinished under the first's passes as the limit", 30),
    ("a table of the first accepted, wider than its answer's", 2_000),
    ("a table of the first accepted, where it is not answered safe", 2_000),
    ("a table of the first refused", 4_000),
];

impl Comparison {
    /// Some of the models, as they are or with cuts taken away, with further cuts: all that is promised of the pair.
    pub(crate) fn finer_case(&mut self, plant: &Plant) -> Result<(), Difference> {
        std::mem::swap(&mut self.random, &mut self.further);
        let chosen = self.random.chance(CUT_PART.0, CUT_PART.1);
        let outcome = if chosen { self.cut_case(plant) } else { Ok(()) };
        std::mem::swap(&mut self.random, &mut self.further);
        outcome
    }

    fn cut_case(&mut self, plant: &Plant) -> Result<(), Difference> {
        let (first, second, way) = self.cut_words(plant);
        let first = &Plant::from_words(&first).expect("a plant with fewer cuts passes its questions");
        let second = &Plant::from_words(&second).expect("a plant with further cuts passes its questions");
        let [rest, other] = self.two_tables(first);
        let limit = random_limit(&mut self.random, first);
        assert!(finer(first, second), "{:?} {:?}", first.words(), second.words());
        let pair = Pair { first, second, kind: Kind::Finer };
        self.note_cuts(&pair, way);
        let quote = quoted(&mut Compared(self, pair.kind), &pair)?;
        let safe = self.answers_case(&pair, limit, &quote)?;
        self.further_tables(&pair, [&rest, &other], safe.as_ref())
    }

    /// The words of a pair, and how it was made.
    fn cut_words(&mut self, plant: &Plant) -> (Vec<i32>, Vec<i32>, &'static str) {
        let random = &mut self.random;
        if random.chance(1, APART_ONE_IN) {
            let (first, second) = kept_apart(random);
            return (first, second, APART);
        }
        let (first, known) = to_refine(random, plant);
        let plant = Plant::from_words(&first).expect("a plant with fewer cuts passes its questions");
        let (second, way) = refined(random, &plant, &known);
        (first, second, way)
    }

    fn note_cuts(&mut self, pair: &Pair, way: &str) {
        let more = pair.second.cuts() - pair.first.cuts();
        let kinds = [
            (way, true),
            ("the same plant", more == 0),
            ("one cut more", more == 1),
            ("several cuts more", more > 1),
            ("the first with a cut, and one more", pair.first.any_cut() && more > 0),
            ("the first without a cut", !pair.first.any_cut()),
        ];
        kinds.into_iter().for_each(|(kind, is)| self.pair_kind(pair, kind, is));
    }
}
