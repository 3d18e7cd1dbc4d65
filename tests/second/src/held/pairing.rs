//! What is promised of a narrower plant (document 02, T-13), held of the tested calls on what they themselves gave: if
//! the first model is safe under some limit, the second is safe under every limit of at least its ceiling and unknown
//! under none, and the first's table is accepted for it. Every other table that is accepted for the first is accepted
//! for the second too; the ceilings and the quotes of the two are equal, and the second's table lies inside the
//! first's. What is held of a pair is the same of a plant with further cuts, but for its tables (`dividing`).

use crate::c_calls::exports::Call;
use crate::c_calls::slices::{Input, Left, Lengths, Slice};
use crate::held::changes::wider;
use crate::held::compare::{hex, written_table, Comparison, Difference};
use crate::held::coverage::note;
use crate::held::writing::Calls;
use crate::inputs::generate::pass_budget;
use crate::inputs::narrowing::{narrowed, WAYS};
use crate::inputs::random::Random;
use crate::reference::analysis::{run_quick, Answer};
use crate::reference::before::lies_inside;
use crate::reference::desk::Desk;
use crate::reference::files::{model_file, parse_table, table_file};
use crate::reference::finer::divided;
use crate::reference::model::{Edition, Plant};
use crate::reference::narrower::narrower;
use crate::reference::quote::Quote;
use crate::reference::tables::pass;

/// Calls that are made in some way, the host's two on files among them.
pub trait HostCalls: Calls {
    /// decide: its number, and the buffer of this many bytes.
    fn decide_file(&mut self, model: &[u8], room: usize, limit: u32) -> Result<(u64, Vec<u8>), Difference>;
    fn check_file(&mut self, model: &[u8], table: &[u8]) -> Result<u64, Difference>;
}

/// What the second of a pair is: a narrower plant than the first, or the first with further cuts.
#[derive(Clone, Copy, PartialEq, Eq)]
pub enum Kind {
    Narrower,
    Finer,
}

impl Kind {
    pub fn label(self) -> &'static str {
        match self {
            Kind::Narrower => "a narrower plant",
            Kind::Finer => "a plant with further cuts",
        }
    }
}

/// A pair of models.
#[derive(Clone, Copy)]
pub struct Pair<'a> {
    pub first: &'a Plant<'a>,
    pub second: &'a Plant<'a>,
    pub kind: Kind,
}

impl Pair<'_> {
    fn broken(&self, what: &str) -> Difference {
        let [first, second] = [self.first, self.second].map(|plant| hex(&model_file(plant.words())));
        Difference { text: format!("{}: {what}\nfirst {first}\nsecond {second}", self.kind.label()) }
    }

    /// A table of the first as one of the second: the same words, or divided.
    pub(crate) fn of_second(&self, table: &[i32]) -> Vec<i32> {
        match self.kind {
            Kind::Narrower => table.to_vec(),
            Kind::Finer => divided(self.first, self.second, table),
        }
    }

    /// A table file of the first as one of the second: the same bytes, or of the table divided. None if it is no file.
    fn file_of_second(&self, file: &[u8]) -> Option<Vec<u8>> {
        match self.kind {
            Kind::Narrower => Some(file.to_vec()),
            Kind::Finer => Some(table_file(self.second, &self.of_second(&parse_table(self.first, file).ok()?))),
        }
    }

    pub(crate) fn hold(&self, holds: bool, what: &str) -> Result<(), Difference> {
        if holds {
            Ok(())
        } else {
            Err(self.broken(what))
        }
    }
}

/// The limits under which the second must be safe: its ceiling, one above it, and the last. None if its ceiling is
/// above the last.
pub fn limits(random: &mut Random, ceiling: u64) -> Vec<u32> {
    if ceiling > u32::MAX as u64 {
        return vec![];
    }
    let above = random.range(ceiling as i64, u32::MAX as i64) as u32;
    vec![ceiling as u32, above, u32::MAX]
}

/// Both have the ceiling that is quoted, and one quote, or with further cuts one that is nowhere less. Gives the
/// second's.
pub fn quoted(calls: &mut impl HostCalls, pair: &Pair) -> Result<Quote, Difference> {
    let mut found = Vec::new();
    for plant in [pair.first, pair.second] {
        let input = Input::of_model(plant.words());
        let quoted = calls.make(Call::Quote, &input, &Lengths::default())?;
        let ceiling = calls.make(Call::Ceiling, &input, &Lengths::default())?;
        found.push(((quoted.number, ceiling.number), quoted.quote(), ceiling.value()));
    }
    let right = found.iter().all(|(numbers, quote, ceiling)| *numbers == (100, 100) && *ceiling == quote.ceiling);
    let (first, second) = (found[0].1, found[1].1);
    let alike = match pair.kind {
        Kind::Narrower => first == second,
        Kind::Finer => first.words <= second.words && first.bytes <= second.bytes && first.ceiling <= second.ceiling,
    };
    pair.hold(right && alike, "other quotes or ceilings")?;
    Ok(second)
}

fn analysed(calls: &mut impl HostCalls, plant: &Plant, limit: u32, lengths: &Lengths) -> Result<Left, Difference> {
    calls.make(Call::Analyse, &Input::of_model(plant.words()).under(limit), lengths)
}

/// The first is analysed, in a table buffer that may have more words than the table. If it is safe, that whole buffer
/// is accepted as a table for the second, or what it is divided. None if it is not safe.
pub fn first_stays(
    calls: &mut impl HostCalls,
    pair: &Pair,
    limit: u32,
    lengths: &Lengths,
) -> Result<Option<Left>, Difference> {
    let first = analysed(calls, pair.first, limit, lengths)?;
    if first.number != 100 {
        return Ok(None);
    }
    table_stays(calls, pair, first.words())?;
    Ok(Some(first))
}

/// The second, of a first that is safe with this table, is safe under all these limits, at a desk under the first of
/// them. Gives the last of its answers.
pub fn second_safe(
    calls: &mut impl HostCalls,
    pair: &Pair,
    table: &[i32],
    limits: &[u32],
    lengths: &Lengths,
) -> Result<Option<Left>, Difference> {
    let size = pair.second.table_words();
    let held = pair.of_second(table);
    let mut second = None;
    for &limit in limits {
        let found = analysed(calls, pair.second, limit, lengths)?;
        pair.hold(found.number == 100, &format!("qii_analyse gives {} under limit {limit}", found.number))?;
        let inside = lies_inside(pair.second, &found.words()[..size], &held[..size]);
        pair.hold(inside, "its table does not lie inside the first's")?;
        second = Some(found);
    }
    if let Some(&limit) = limits.first() {
        let input = Input::of_model(pair.second.words()).under(limit);
        let charged = calls.make(Call::Desk, &input, lengths)?.number;
        pair.hold(charged == 100, &format!("qii_desk gives {charged} under limit {limit}"))?;
    }
    Ok(second)
}

/// The second, of a first that is safe, is unknown under no limit, on words or in a file: under this one it is safe or
/// unfinished. Tells whether it is unfinished.
pub fn never_unknown(calls: &mut impl HostCalls, pair: &Pair, limit: u32, quote: &Quote) -> Result<bool, Difference> {
    let lengths = Lengths::of_table(quote.words as usize);
    let by_words = analysed(calls, pair.second, limit, &lengths)?.number as u64;
    let (number, _) = calls.decide_file(&model_file(pair.second.words()), quote.bytes as usize, limit)?;
    let numbers = [by_words, number >> 32];
    pair.hold(numbers == [100; 2] || numbers == [102; 2], &format!("{numbers:?} under limit {limit}"))?;
    Ok(by_words == 102)
}

/// A table of the first is accepted as one of the second by qii_check.
fn table_stays(calls: &mut impl HostCalls, pair: &Pair, table: &[i32]) -> Result<(), Difference> {
    let table = &pair.of_second(table);
    let input = Input::of_model(pair.second.words()).with_table(table);
    let number = calls.make(Call::Check, &input, &Lengths::default())?.number;
    pair.hold(number == 100, &format!("qii_check gives {number} for a table that is accepted for the first\n{table:?}"))
}

/// The same of files: decide on the first; if it is safe, decide on the second under all these limits, and check of the
/// second with the table file that decide on the first left. Tells whether it is.
pub fn files_stay(
    calls: &mut impl HostCalls,
    pair: &Pair,
    limit: u32,
    limits: &[u32],
    room: usize,
) -> Result<bool, Difference> {
    let [first, second] = [pair.first, pair.second].map(|plant| model_file(plant.words()));
    let (number, buffer) = calls.decide_file(&first, room, limit)?;
    if number >> 32 != 100 {
        return Ok(false);
    }
    for &limit in limits {
        let (number, _) = calls.decide_file(&second, room, limit)?;
        pair.hold(number >> 32 == 100, &format!("decide gives {} under limit {limit}", number >> 32))?;
    }
    file_stays(calls, pair, &second, written_table(pair.first, &buffer))?;
    Ok(true)
}

/// A table file of the first is accepted as one of the second, whose file is given, by check.
fn file_stays(calls: &mut impl HostCalls, pair: &Pair, second: &[u8], file: &[u8]) -> Result<(), Difference> {
    let file = pair.file_of_second(file).ok_or_else(|| pair.broken("the first's table file does not read"))?;
    let checked = calls.check_file(second, &file)?;
    pair.hold(checked == 100, &format!("check gives {checked} for a table file that is accepted for the first"))
}

/// A table that is accepted for the first, as words or as a file, is accepted for the second. Tells whether it is.
pub fn accepted_stays(calls: &mut impl HostCalls, pair: &Pair, table: &[i32]) -> Result<bool, Difference> {
    let of_first = Input::of_model(pair.first.words()).with_table(table);
    let by_words = calls.make(Call::Check, &of_first, &Lengths::default())?.number == 100;
    let [first, second] = [pair.first, pair.second].map(|plant| model_file(plant.words()));
    let file = table_file(pair.first, table);
    let by_file = calls.check_file(&first, &file)? == 100;
    if by_words {
        table_stays(calls, pair, table)?;
    }
    if by_file {
        file_stays(calls, pair, &second, &file)?;
    }
    Ok(by_words && by_file)
}

// ---------------------------------------------------------------- in a comparison

/// Which part of the models that are not answered unknown is paired.
const PAIRED_PART: (u64, u64) = (3, 4);

/// What must come up among the pairs, and how often under the full counts.
pub const PAIRED: [(&str, u64); 26] = [
    ("the same plant", 1_000),
    ("three ways or more", 2_000),
    ("with a cut", 5_000),
    ("without a cut", 3_000),
    ("both of edition 2", 3_000),
    ("the first of edition 1, the second of edition 2", 500),
    ("the first of edition 2, the second of edition 1", 500),
    ("fewer start parts", 1_500),
    ("a start box behind walls, and no start part", 2_000),
    ("fewer switches", 1_000),
    ("more switches", 800),
    ("fewer forbidden boxes", 500),
    ("more forbidden boxes", 600),
    ("safe on words", 5_000),
    ("safe in files", 5_000),
    ("under the ceiling as the limit", 5_000),
    ("its own table another than the first's", 1_500),
    ("its own table the first's", 3_000),
    ("fewer passes than the first", 1_000),
    ("more passes than the first", 80),
    ("safe under the first's passes as the limit", 5_000),
    ("unfinished under the first's passes as the limit", 80),
    ("a table of the first accepted, wider than its answer's", 3_000),
    ("a table of the first accepted, where it is not answered safe", 3_000),
    ("a table of the first refused", 5_000),
    ("a ceiling above 4,294,967,295", 1),
];

/// How often each way to make a plant narrower must come up under the full counts.
pub const EACH_WAY: u64 = 300;

/// The kinds of `PAIRED` that a pair is of, made in these ways: the first thirteen.
fn kinds(pair: &Pair, ways: &[&str]) -> [bool; 13] {
    let (first, second) = (pair.first, pair.second);
    let editions = (first.edition, second.edition);
    let of_locations =
        |plant: &Plant, is: fn(&Plant, usize) -> bool| (0..plant.sizes.locations).filter(|&l| is(plant, l)).count();
    let parts = |plant: &Plant| of_locations(plant, |plant, l| plant.location(l).start_part().is_some());
    let boxes = |plant: &Plant| of_locations(plant, |plant, l| plant.location(l).started);
    [
        first.words() == second.words(),
        ways.len() > 2,
        first.any_cut(),
        !first.any_cut(),
        editions == (Edition::Two, Edition::Two),
        editions == (Edition::One, Edition::Two),
        editions == (Edition::Two, Edition::One),
        parts(second) < parts(first),
        parts(second) < boxes(second),
        second.sizes.switches < first.sizes.switches,
        second.sizes.switches > first.sizes.switches,
        second.sizes.forbidden < first.sizes.forbidden,
        second.sizes.forbidden > first.sizes.forbidden,
    ]
}

/// The plant is answered within so many passes.
pub fn ends_within(plant: &Plant, passes: u32) -> bool {
    let (mut table, mut work) = (vec![0; plant.table_words()], vec![0; plant.table_words()]);
    run_quick(plant, passes, &mut table, &mut work).0 != Answer::Unfinished
}

/// The calls of a comparison, on a pair of this kind.
pub(crate) struct Compared<'a>(pub(crate) &'a mut Comparison, pub(crate) Kind);

impl Calls for Compared<'_> {
    fn make(&mut self, call: Call, input: &Input, lengths: &Lengths) -> Result<Left, Difference> {
        self.0.call(self.1.label(), call, input, lengths, Desk::default())
    }
}

impl HostCalls for Compared<'_> {
    fn decide_file(&mut self, model: &[u8], room: usize, limit: u32) -> Result<(u64, Vec<u8>), Difference> {
        self.0.decide(self.1.label(), model, room, limit)
    }

    fn check_file(&mut self, model: &[u8], table: &[u8]) -> Result<u64, Difference> {
        self.0.check(self.1.label(), model, table)
    }
}

impl Comparison {
    /// A model, most of the time, unless decide has answered it unknown, with a narrower plant: all that is promised of
    /// the pair, of these tables of the first too.
    pub(crate) fn narrower_case(
        &mut self,
        first: &Plant,
        limit: u32,
        code: u64,
        tables: [&[i32]; 2],
    ) -> Result<(), Difference> {
        if code == 101 || !self.random.chance(PAIRED_PART.0, PAIRED_PART.1) {
            return Ok(());
        }
        let made = narrowed(&mut self.random, first);
        let second = &Plant::from_words(&made.words).expect("a narrower plant passes its questions");
        assert!(narrower(first, second), "{:?} {:?}", first.words(), second.words());
        let pair = Pair { first, second, kind: Kind::Narrower };
        self.note_pair(&pair, &made.ways);
        let quote = quoted(&mut Compared(self, pair.kind), &pair)?;
        let safe = self.answers_case(&pair, limit, &quote)?;
        self.further_tables(&pair, tables, safe.as_ref())
    }

    pub(crate) fn pair_kind(&mut self, pair: &Pair, kind: &str, is: bool) {
        let tally = match pair.kind {
            Kind::Narrower => &mut self.counts.pairs,
            Kind::Finer => &mut self.counts.finer,
        };
        if is {
            note(tally, kind);
        }
    }

    fn note_pair(&mut self, pair: &Pair, ways: &[&'static str]) {
        for ((kind, _), is) in PAIRED.iter().zip(kinds(pair, ways)) {
            self.pair_kind(pair, kind, is);
        }
        for (way, _) in WAYS.iter().filter(|(way, _)| ways.contains(way)) {
            note(&mut self.counts.ways, *way);
        }
    }

    /// The second's limits, of a first that took so many passes; none if its ceiling is above the last, or if it takes
    /// more passes than one may ask for and than twice the first's.
    fn limits_of(&mut self, pair: &Pair, quote: &Quote, passes: u64) -> Vec<u32> {
        let soon = ends_within(pair.second, pass_budget(pair.second).max((passes as u32).saturating_mul(2)));
        match pair.kind {
            Kind::Narrower => self.counts.long_pairs += !soon as u64,
            Kind::Finer => self.pair_kind(pair, "not analysed, as it takes too long", !soon),
        }
        self.pair_kind(pair, "a ceiling above 4,294,967,295", quote.ceiling > u32::MAX as u64);
        if soon {
            limits(&mut self.random, quote.ceiling)
        } else {
            vec![]
        }
    }

    /// The promise where the first is safe, on words and in files. Gives its answer, if it is.
    pub(crate) fn answers_case(&mut self, pair: &Pair, limit: u32, quote: &Quote) -> Result<Option<Left>, Difference> {
        let size = quote.words as usize;
        let lengths = Lengths::of_table(size).with(Slice::Words, size + self.random.below(4));
        let Some(first) = first_stays(&mut Compared(self, pair.kind), pair, limit, &lengths)? else {
            return Ok(None);
        };
        let limits = self.limits_of(pair, quote, first.value());
        let second = second_safe(&mut Compared(self, pair.kind), pair, first.words(), &limits, &lengths)?;
        let in_files = files_stay(&mut Compared(self, pair.kind), pair, limit, &limits, quote.bytes as usize)?;
        let unfinished = never_unknown(&mut Compared(self, pair.kind), pair, first.value() as u32, quote)?;
        self.pair_kind(pair, "safe under the first's passes as the limit", !unfinished);
        self.pair_kind(pair, "unfinished under the first's passes as the limit", unfinished);
        self.pair_kind(pair, "safe on words", true);
        self.pair_kind(pair, "safe in files", in_files);
        if let Some(second) = second {
            self.note_answers(pair, &first, &second);
        }
        Ok(Some(first))
    }

    fn note_answers(&mut self, pair: &Pair, first: &Left, second: &Left) {
        let size = pair.second.table_words();
        let same = pair.of_second(first.words())[..size] == second.words()[..size];
        self.pair_kind(pair, "under the ceiling as the limit", true);
        self.pair_kind(pair, "its own table another than the first's", !same);
        self.pair_kind(pair, "its own table the first's", same);
        self.pair_kind(pair, "fewer passes than the first", second.value() < first.value());
        self.pair_kind(pair, "more passes than the first", second.value() > first.value());
    }

    /// These tables of the first, and a wider one, if they are other than its answer's.
    pub(crate) fn further_tables(
        &mut self,
        pair: &Pair,
        tables: [&[i32]; 2],
        safe: Option<&Left>,
    ) -> Result<(), Difference> {
        let own = safe.map(|left| &left.words()[..pair.first.table_words()]);
        let wide = wider(&mut self.random, pair.first, own.unwrap_or(tables[0]), pass);
        for table in tables.into_iter().chain([&wide[..]]).filter(|table| own != Some(*table)) {
            let accepted = accepted_stays(&mut Compared(self, pair.kind), pair, table)?;
            self.pair_kind(pair, "a table of the first accepted, wider than its answer's", accepted && own.is_some());
            self.pair_kind(
                pair,
                "a table of the first accepted, where it is not answered safe",
                accepted && own.is_none(),
            );
            self.pair_kind(pair, "a table of the first refused", !accepted);
        }
        Ok(())
    }
}
