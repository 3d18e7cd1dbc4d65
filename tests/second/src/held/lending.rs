//! Compares the C calls beside decide and check with this package's own: the number, the value or
//! the quote, and the whole of all memory that is lent, with old contents in every buffer.

use std::cmp::Ordering;

use crate::c_calls::exports::{answer, Call};
use crate::c_calls::slices::{Input, Left, Lengths, Lent, Numbers, Slice};
use crate::held::compare::{hex, Comparison, Difference};
use crate::held::coverage::note;
use crate::held::quoting::quoted_lengths;
use crate::held::writing::Decided;
use crate::inputs::damage::{damage_table, damaged_ranges, damaged_starts, edited_words, RANGE_DAMAGE, START_DAMAGE};
use crate::inputs::generate::{pass_budget, random_limit};
use crate::inputs::random::Random;
use crate::reference::desk::Desk;
use crate::reference::files::{model_file, model_file_bytes, table_file};
use crate::reference::model::{Plant, HEAD_WORDS};
use crate::reference::quote::{Quote, Taken};

/// Words or bytes on both sides of a lent buffer that nobody may touch, unless the comparison is tight.
const MARGIN: usize = 8;

/// Words that the buffers of the standing desk have past the table.
const PAST_THE_TABLE: usize = 5;

/// Models that are kept for the desk's lists.
const RECENT: usize = 8;

/// The lengths that are due: of the model's words, its table, the file that is handed over, the room for
/// a table file, and the model's own file.
#[derive(Clone, Copy)]
struct Due {
    model: usize,
    table: usize,
    file: usize,
    room: usize,
    model_file: usize,
}

impl Due {
    fn new(plant: &Plant, file: usize) -> Due {
        Due {
            model: plant.words().len(),
            table: plant.table_words(),
            file,
            room: plant.table_file_room(),
            model_file: model_file_bytes(plant),
        }
    }

    fn of(&self, call: Call, slice: Slice) -> usize {
        match slice {
            Slice::Model => self.model,
            Slice::Words if call == Call::ReadModel => self.model,
            Slice::Table | Slice::Words | Slice::Work => self.table,
            Slice::File => self.file,
            Slice::FileRoom if call == Call::WriteModel => self.model_file,
            Slice::FileRoom => self.room,
            Slice::Jobs | Slice::Passes | Slice::Value | Slice::Quote => Lengths::default().of(slice),
        }
    }

    /// Lengths for the buffers that are lent, each by the one that is due.
    fn lent(&self, call: Call, mut length: impl FnMut(usize) -> usize) -> Lengths {
        let with = |lengths: Lengths, slice: Slice| lengths.with(slice, length(self.of(call, slice)));
        Slice::ROOM.into_iter().fold(Lengths::default(), with)
    }
}

/// Did a call that gave this number come as far as to ask for the length of a lent buffer? What is read counts always.
fn asked_for(call: Call, slice: Slice, number: u32) -> bool {
    match slice {
        Slice::Words if call == Call::ReadModel => number >= 5,
        Slice::Words => matches!(number, 20..=40 | 100..),
        Slice::Work => matches!(number, 21..=40 | 100..),
        Slice::FileRoom => matches!(number, 39..=40 | 100..),
        _ => true,
    }
}

/// The kinds of lengths; all but the last must come up for every slice of every call.
pub const LENGTH_KINDS: [&str; 5] = ["empty", "one short", "exact", "longer", "shorter"];

fn length_kind(length: usize, due: usize) -> &'static str {
    match (length, length.cmp(&due)) {
        (0, _) => LENGTH_KINDS[0],
        (_, Ordering::Less) if length + 1 == due => LENGTH_KINDS[1],
        (_, Ordering::Less) => LENGTH_KINDS[4],
        (_, Ordering::Equal) => LENGTH_KINDS[2],
        (_, Ordering::Greater) => LENGTH_KINDS[3],
    }
}

/// A length: mostly the one that is due.
fn random_length(random: &mut Random, due: usize) -> usize {
    match random.below(16) {
        0 => 0,
        1 => due.saturating_sub(1),
        2 => random.below(due + 1),
        3..=5 => due + 1 + random.below(40),
        _ => due,
    }
}

/// The list's beginning, or the list followed by words that are not part of it.
pub(crate) fn of_length(random: &mut Random, list: &[i32], length: usize) -> Vec<i32> {
    let mut list = list[..list.len().min(length)].to_vec();
    list.extend((list.len()..length).map(|_| random.next() as i32));
    list
}

/// Old contents of a word buffer: any words, words that look like a table's, or ones.
fn old_words(random: &mut Random, length: usize) -> Box<[i32]> {
    match random.below(4) {
        0 => (0..length).map(|_| random.range(-1, 2) as i32).collect(),
        1 => vec![1; length].into_boxed_slice(),
        _ => (0..length).map(|_| random.next() as i32).collect(),
    }
}

/// The file that a call is handed for a model and one of its tables; none if it takes no file.
fn file_for(call: Call, plant: &Plant, table: &[i32]) -> Vec<u8> {
    match call {
        Call::ReadModel => model_file(plant.words()),
        Call::ReadTable => table_file(plant, table),
        _ => Vec::new(),
    }
}

/// A copy in a heap block that ends with it, behind so many other numbers.
fn placed<T: Copy + Default>(list: &[T], behind: usize) -> Box<[T]> {
    [&vec![T::default(); behind][..], list].concat().into_boxed_slice()
}

/// Copies of the slices that a call reads, each behind some other numbers, to vary its address.
struct Placed(Vec<(Slice, usize, Box<[i32]>, Box<[u8]>)>);

impl Placed {
    fn new(random: &mut Random, input: &Input) -> Placed {
        let copies = Slice::READ.map(|slice| {
            let behind = random.below(4);
            (slice, behind, placed(input.words(slice), behind), placed(input.bytes(slice), behind))
        });
        Placed(copies.into())
    }

    fn input(&self, limit: u32) -> Input<'_> {
        self.0.iter().fold(Input::default().under(limit), |input, (slice, behind, words, bytes)| {
            input.with_words(*slice, &words[*behind..]).with_bytes(*slice, &bytes[*behind..])
        })
    }
}

/// What a slice of so many numbers holds before a call.
fn old_numbers(random: &mut Random, slice: Slice, length: usize, desk: Desk) -> Numbers {
    match slice {
        Slice::Words | Slice::Work => Numbers::Words(old_words(random, length)),
        Slice::Jobs => Numbers::made(slice, length, || desk.jobs as u64),
        Slice::Passes => Numbers::made(slice, length, || desk.passes as u64),
        _ => Numbers::made(slice, length, || random.next()),
    }
}

/// What a call is lent, with old contents. They are drawn for every slice, so that every call draws alike.
fn old_memory(random: &mut Random, call: Call, lengths: &Lengths, desk: Desk, margin: usize) -> Lent {
    let block = |slice: Slice| {
        let length = match (slice.is_sized(), call.takes(slice)) {
            (true, true) => lengths.of(slice) + 2 * margin,
            (true, false) => 2 * margin,
            (false, _) => lengths.of(slice),
        };
        old_numbers(random, slice, length, desk)
    };
    Lent::all(margin, block).of(call)
}

/// What is wrong with a tested call, if anything: by both numbers, by what is left of both memories, and by whether what
/// it only reads stands.
fn problem(numbers: [u32; 2], [ours, theirs]: [&Lent; 2], stands: bool) -> Option<String> {
    if numbers[0] != numbers[1] {
        return Some("the numbers differ".to_string());
    }
    if let Some(place) = ours.difference(theirs) {
        return Some(format!("what is left differs: {place}"));
    }
    (!stands).then(|| "what was only to be read was changed".to_string())
}

/// A call's whole input, in words.
fn input_text(call: Call, input: &Input, lengths: &Lengths, desk: Desk) -> String {
    let slices = call.sized().map(|slice| {
        let name = slice.name();
        if !slice.is_read() {
            format!("{name} of {}", lengths.of(slice))
        } else if slice.is_bytes() {
            format!("{name} {}", hex(input.bytes(slice)))
        } else {
            format!("{name} {:?}", input.words(slice))
        }
    });
    format!("limit {}, {desk:?}\n{}", input.limit, slices.collect::<Vec<_>>().join("\n"))
}

impl Comparison {
    /// Compares one call: its number, its value or quote, all memory that it may write, and what it reads.
    /// Slices that it does not take are left empty.
    pub(crate) fn call(
        &mut self,
        label: &str,
        call: Call,
        input: &Input,
        lengths: &Lengths,
        desk: Desk,
    ) -> Result<Left, Difference> {
        let input = &input.of(call);
        let margin = if self.tight { 0 } else { MARGIN };
        let placed = Placed::new(&mut self.random, input);
        let before = old_memory(&mut self.random, call, lengths, desk, margin);
        let (mut ours, mut theirs) = (before.clone(), before.clone());
        let our_number = answer(call, input, &mut ours);
        if self.trace {
            eprintln!("{}, {label}: {}", call.name(), input_text(call, input, lengths, desk));
        }
        let their_number = (self.tested.answer)(call, &placed.input(input.limit), &mut theirs);
        let stands = placed.input(input.limit) == *input;
        if let Some(problem) = problem([our_number, their_number], [&ours, &theirs], stands) {
            let text = input_text(call, input, lengths, desk);
            return Err(Difference {
                text: format!("{}, {label}: {problem}\nhere {our_number}, there {their_number}\n{text}", call.name()),
            });
        }
        *self.counts.calls.entry(call).or_default().entry(our_number).or_default() += 1;
        Ok(Left { number: their_number, after: theirs, before })
    }

    /// Compares one call and counts the kinds of its slices' lengths. Those of lent buffers count
    /// only where the call came as far as to ask for them.
    fn sized_call(
        &mut self,
        label: &str,
        call: Call,
        input: &Input,
        lengths: &Lengths,
        due: &Due,
    ) -> Result<Left, Difference> {
        let left = self.call(label, call, input, lengths, Desk::default())?;
        for slice in call.sized() {
            let length = if slice.is_read() { input.length(slice) } else { lengths.of(slice) };
            if asked_for(call, slice, left.number) {
                let kind = length_kind(length, due.of(call, slice));
                note(&mut self.counts.lengths, format!("{} {slice:?} {kind}", call.name()));
            }
        }
        Ok(left)
    }

    /// Every call on one model: buffers and lists of all lengths, then as a program uses them.
    pub(crate) fn calls_case(
        &mut self,
        plant: &Plant,
        limit: u32,
        rest: &[i32],
        other: &[i32],
    ) -> Result<(), Difference> {
        for call in Call::ALL {
            let table = if self.random.chance(1, 2) { rest } else { other };
            let mut file = file_for(call, plant, table);
            let due = Due::new(plant, file.len());
            let random = &mut self.random;
            let lengths = due.lent(call, |due| random_length(random, due));
            let mut length = |slice: Slice| random_length(random, due.of(call, slice));
            let (model_length, table_length) = (length(Slice::Model), length(Slice::Table));
            let file_length = length(Slice::File);
            let words = of_length(&mut self.random, plant.words(), model_length);
            let table = of_length(&mut self.random, table, table_length);
            file.resize(file_length, 0);
            let input = Input::of_model(&words).with_table(&table).with_file(&file).under(limit);
            self.sized_call("a random model", call, &input, &lengths, &due)?;
        }
        self.program_case(plant, limit)
    }

    /// As a program uses the calls: the model is written and its file read, the order quoted, the model analysed
    /// in buffers of the quoted lengths and charged to the desk, the table checked, written, and read again;
    /// each on what the call before it left. The model's file is decided alike, and all of it keeps to the quote.
    pub(crate) fn program_case(&mut self, plant: &Plant, limit: u32) -> Result<(), Difference> {
        let file = self.written_case(plant)?;
        let model_words = Lengths::of_words(plant.words().len());
        let read = self.program_call(Call::ReadModel, &Input::of_file(&file).under(limit), &model_words)?;
        let with_model = Input::of_model(read.words()).under(limit);
        let quote = self.quote_of(&with_model)?;
        let buffers = quoted_lengths(&quote);
        let found = self.program_call(Call::Analyse, &with_model, &buffers)?;
        self.note_found(plant, quote.ceiling, &found);
        let charged = self.standing_desk(&with_model, &quote)?;
        let with_table = with_model.with_table(found.words());
        let checked = self.program_call(Call::Check, &with_table, &buffers)?.number;
        hold_answer(&found, limit, quote.ceiling, checked)?;
        let written = self.program_call(Call::WriteTable, &with_table, &buffers)?;
        let with_file = with_table.with_file(&written.file()[..written.value() as usize]);
        let again = self.program_call(Call::ReadTable, &with_file, &buffers)?;
        if again.words() != found.words() {
            return Err(Difference { text: format!("a table file reads as something else\nmodel {}", hex(&file)) });
        }
        let by_words = Decided { code: found.number as u64, passes: found.value(), table: with_file.file().to_vec() };
        self.decided_alike(plant, &file, limit, buffers.of(Slice::FileRoom), &by_words)?;
        let taken = Taken { passes: found.value().max(charged), words: again.value(), bytes: written.value() };
        self.short_of_the_quote(&with_file, &file, &quote)?;
        self.quote_case(plant, limit, &quote, &taken)
    }

    /// A call of such a program, on a fresh desk.
    pub(crate) fn program_call(&mut self, call: Call, input: &Input, lengths: &Lengths) -> Result<Left, Difference> {
        self.call("as a program", call, input, lengths, Desk::default())
    }

    /// Counts what an analysis is an extreme of.
    fn note_found(&mut self, plant: &Plant, ceiling: u64, found: &Left) {
        self.counts.extreme("a ceiling above 4,294,967,295", ceiling > u32::MAX as u64);
        self.counts.extreme("qii_analyse of more than 1,500 passes", found.value() > 1_500);
        self.counts.extreme("a face from -1,000,000 to 1,000,000", spans_all_levels(plant, found.words()));
        if found.number >= 100 {
            self.counts.note_pieces(plant, found.words());
        }
    }

    /// A call of the one desk that stands through the whole comparison, from fresh on, with buffers
    /// longer than quoted: words past the table stand. Gives the passes.
    fn standing_desk(&mut self, input: &Input, quote: &Quote) -> Result<u64, Difference> {
        let label = "the standing desk";
        let size = quote.words as usize;
        let longer = Lengths::of_table(size + PAST_THE_TABLE);
        // A limit that the counter can take, so that it is mostly answered.
        let limit = input.limit.min(u32::MAX - self.desk.passes);
        let left = self.call(label, Call::Desk, &input.under(limit), &longer, self.desk)?;
        if left.number >= 100 {
            self.answered += 1;
            self.passes += left.value();
        }
        self.desk = left.desk();
        self.counts.extreme("qii_desk of more than 1,500 passes", left.number >= 100 && left.value() > 1_500);
        if left.words()[size..] != left.old_words()[size..] {
            return Err(Difference { text: format!("{label}: words past the {size} quoted do not stand") });
        }
        hold_counters(label, self.desk, self.answered, self.passes)?;
        Ok(left.value())
    }

    /// One damaged input of one of the calls. A model that is read or written of it goes back too.
    pub(crate) fn damaged_call(&mut self, plant: &Plant, rest: &[i32], other: &[i32]) -> Result<(), Difference> {
        self.counts.damaged_calls += 1;
        let call = Call::ALL[self.random.below(Call::ALL.len())];
        let table = if self.random.chance(2, 3) { rest } else { other };
        let (words, list, file) = self.damaged_slices(call, plant, table);
        // A model that still passes its questions may have another table and another file.
        let damaged = Plant::from_words(&words);
        let due = Due::new(damaged.as_ref().unwrap_or(plant), file_for(call, plant, table).len());
        let random = &mut self.random;
        let exact = random.chance(3, 4);
        let lengths = due.lent(call, |due| if exact { due } else { random_length(random, due) });
        let limit = self.random.below(pass_budget(plant).min(30) as usize) as u32;
        let input = Input::of_model(&words).with_table(&list).with_file(&file).under(limit);
        if call == Call::WriteModel {
            // The model's questions come before 40.
            self.sized_call("a damaged model, and no buffer", call, &input, &Lengths::default(), &due)?;
        }
        let left = self.sized_call("a damaged input", call, &input, &lengths, &due)?;
        self.there_and_back(call, &input, &left)
    }

    /// Model words, a table's words and a file for a call, with one damaged that it reads.
    fn damaged_slices(&mut self, call: Call, plant: &Plant, table: &[i32]) -> (Vec<i32>, Vec<i32>, Vec<u8>) {
        let slices: Vec<Slice> = call.sized().filter(|slice| slice.is_read()).collect();
        let mut words = plant.words().to_vec();
        let mut list = table.to_vec();
        let mut file = file_for(call, plant, table);
        match self.random.pick(&slices) {
            Slice::Model => words = self.damaged_words(plant),
            Slice::Table => {
                for _ in 0..1 + self.random.below(2) {
                    let kind = damage_table(&mut self.random, plant, &mut list);
                    note(&mut self.counts.damage, format!("table words: {kind}"));
                }
            }
            _ if call == Call::ReadModel => file = self.damaged_model(plant, &file),
            _ => file = self.damaged_table(plant, table),
        }
        (words, list, file)
    }

    /// Model words, edited, shortened or thrown together.
    fn damaged_words(&mut self, plant: &Plant) -> Vec<i32> {
        let random = &mut self.random;
        let (words, kind) = match random.below(18) {
            0 => {
                let length = random.below(plant.words().len());
                (of_length(random, plant.words(), length), "ends anywhere")
            }
            1 => {
                let length = random.below(HEAD_WORDS + 2);
                (of_length(random, plant.words(), length), "ends at the head")
            }
            2 => ((0..random.below(30)).map(|_| random.range(-1, 3) as i32).collect(), "random words"),
            3 => {
                let more = random.below(3);
                let mut words = edited_words(random, plant);
                words.extend(vec![1; more]);
                (words, "edited, and words behind it")
            }
            4 | 5 => {
                let (words, kind) = damaged_starts(random, plant);
                (words, START_DAMAGE[kind].0)
            }
            6..=8 => {
                let (words, kind) = damaged_ranges(random, plant);
                (words, RANGE_DAMAGE[kind].0)
            }
            9 => {
                let length = HEAD_WORDS - random.below(3);
                let mut words = plant.words()[..length].to_vec();
                words[random.below(2)] = random.pick(&[0, 65, -1]);
                (words, "a bad count, and ends at the head")
            }
            _ => (edited_words(random, plant), "words at the edge of a question"),
        };
        note(&mut self.counts.damage, format!("model words: {kind}"));
        words
    }

    /// Keeps a model for the lists of desk calls.
    pub(crate) fn keep_model(&mut self, words: Vec<i32>) {
        if self.recent.len() == RECENT {
            self.recent.remove(0);
        }
        self.recent.push(words);
    }

    /// A list of desk calls on the models kept: from a fresh desk, or with counters near their end.
    /// After every call jobs is the number of answered calls and passes the sum of their passes,
    /// beyond what both were at first.
    pub(crate) fn desk_list(&mut self) -> Result<(), Difference> {
        self.counts.desk_lists += 1;
        let (first, kind) = first_desk(&mut self.random);
        note(&mut self.counts.desks, kind);
        let mut desk = first;
        let (mut jobs, mut passes) = (first.jobs as u64, first.passes as u64);
        for _ in 0..3 + self.random.below(6) {
            let chosen = self.random.below(self.recent.len());
            let words = self.recent[chosen].clone();
            let plant = Plant::from_words(&words).expect("a random model passes its questions");
            let due = Due::new(&plant, 0);
            let limit = desk_limit(&mut self.random, &plant, desk);
            let random = &mut self.random;
            let sure = random.chance(3, 4);
            let mut length = |due: usize| if sure { due } else { random_length(random, due) };
            let lengths = Lengths::of_words(length(due.table)).with(Slice::Work, length(due.table));
            let model = if self.random.chance(1, 8) { self.damaged_words(&plant) } else { words.clone() };
            let input = Input::of_model(&model).under(limit);
            let left = self.call("a list of desk calls", Call::Desk, &input, &lengths, desk)?;
            if left.number >= 100 {
                jobs += 1;
                passes += left.value();
            }
            self.note_desk(desk, limit, &left);
            desk = left.desk();
            hold_counters("a list of desk calls", desk, jobs, passes)?;
        }
        Ok(())
    }

    fn note_desk(&mut self, before: Desk, limit: u32, left: &Left) {
        let most = u32::MAX as u64;
        let full_jobs = before.jobs as u64 + 1 > most;
        let full_passes = before.passes as u64 + limit as u64 > most;
        let just_fits = before.passes as u64 + limit as u64 == most;
        let kinds = [
            left.number == 22 && full_jobs && !full_passes,
            left.number == 22 && !full_jobs && full_passes,
            left.number == 22 && full_jobs && full_passes,
            left.number >= 100 && just_fits,
            left.number >= 100 && left.desk().jobs == u32::MAX,
            left.number >= 100 && left.desk().passes == u32::MAX && left.value() > 0,
            (5..=21).contains(&left.number) && (full_jobs || full_passes),
        ];
        for (kind, is) in DESK_CALLS.into_iter().zip(kinds) {
            if is {
                note(&mut self.counts.desks, kind);
            }
        }
    }
}

/// Where a list of desk calls begins.
pub const DESK_STARTS: [&str; 4] =
    ["a fresh desk", "jobs near the end", "passes near the end", "both counters near the end"];

/// What desk calls of the lists must have met.
pub const DESK_CALLS: [&str; 7] = [
    "22 by jobs alone",
    "22 by passes alone",
    "22 by both",
    "answered under a limit that just fits",
    "jobs come to 4,294,967,295",
    "passes come to 4,294,967,295",
    "an earlier question refused, with 22 in store",
];

fn first_desk(random: &mut Random) -> (Desk, &'static str) {
    let kind = random.below(6).saturating_sub(2);
    let (near_jobs, near_passes) = (random.below(5) as u32, random.below(40) as u32);
    let far = random.next() as u32 / 2;
    let desk = match kind {
        0 => Desk::default(),
        1 => Desk { jobs: u32::MAX - near_jobs, passes: far },
        2 => Desk { jobs: far, passes: u32::MAX - near_passes },
        _ => Desk { jobs: u32::MAX - near_jobs, passes: u32::MAX - near_passes },
    };
    (desk, DESK_STARTS[kind])
}

/// A limit for a desk call: one that the model ends under, or one at the edge of the counter.
fn desk_limit(random: &mut Random, plant: &Plant, desk: Desk) -> u32 {
    let rest = u32::MAX - desk.passes;
    let edge = random.pick(&[rest, rest.saturating_add(1), rest.saturating_sub(1)]);
    if edge <= pass_budget(plant) && random.chance(2, 3) {
        return edge;
    }
    random_limit(random, plant)
}

/// The counters are what the answers so far make them.
fn hold_counters(label: &str, desk: Desk, jobs: u64, passes: u64) -> Result<(), Difference> {
    if (desk.jobs as u64, desk.passes as u64) == (jobs, passes) {
        return Ok(());
    }
    Err(Difference { text: format!("{label}: {desk:?}, but the answers make {jobs} jobs and {passes} passes") })
}

/// The checker accepts the table of a safe answer and of no other, and none is unfinished under the ceiling.
fn hold_answer(found: &Left, limit: u32, ceiling: u64, checked: u32) -> Result<(), Difference> {
    let number = found.number;
    if (number == 100) == (checked == 100) && (number != 102 || (limit as u64) < ceiling) {
        return Ok(());
    }
    Err(Difference {
        text: format!("answered {number} under limit {limit}, ceiling {ceiling}, and check gives {checked}"),
    })
}

/// A present face of the table reaches from the lowest level to the highest.
fn spans_all_levels(plant: &Plant, table: &[i32]) -> bool {
    let level = crate::reference::model::LEVEL;
    table
        .chunks_exact(plant.sizes.face_words())
        .any(|face| face[0] == 1 && face[1..].chunks_exact(2).any(|range| range == [-level, level]))
}
