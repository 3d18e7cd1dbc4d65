//! What is changed by cutting a wall's delays to those that all variables can live with (document 02, T-06): the
//! wall steps, by kinds, and the answers, against those with the steps of before.
//!
//! What must not be is asked of every random model. Its tables lie inside those of before after as many passes,
//! and it does not become unknown; the tested calls accept each table that was accepted before.

use crate::c_calls::exports::Call;
use crate::c_calls::slices::{Input, Lengths};
use crate::held::compare::{hex, Comparison, Difference};
use crate::held::coverage::{note, Tally};
use crate::inputs::generate::{close_by, pass_budget, put_random_piece};
use crate::inputs::random::Random;
use crate::reference::analysis::{run_quick, Answer};
use crate::reference::before::{self, lies_inside};
use crate::reference::delays::{delays, delays_inside, Delays, End};
use crate::reference::desk::Desk;
use crate::reference::files::{model_file, table_file};
use crate::reference::model::{Location, Plant, MAX_BOX};
use crate::reference::steps::join;
use crate::reference::tables::{pass, Pass};

/// How the delays of a wall step come out; each must come up in a comparison.
pub const STEP_KINDS: [&str; 16] = [
    "as they were",
    "still endless",
    "shorter",
    "empty",
    "empty, where rounding gave a face",
    "one delay left",
    "ending at a fraction",
    "endless before",
    "by the low end of a part that rises",
    "by the high end of a part that falls",
    "by variable 0",
    "by the last variable",
    "by a variable before the wall's",
    "by a variable after the wall's",
    "by two variables at once",
    "of a start part",
];

/// Tables are held to those of before for so many passes.
const MOST_PASSES: u32 = 300;

/// What changed in the random models of a comparison.
#[derive(Clone, Debug, Default)]
pub struct Changes {
    /// Models that are other in anything, and models that take too many passes with the steps of before.
    pub models: u64,
    pub not_compared: u64,
    /// Models with another answer, another number of passes, another table.
    pub answer: u64,
    pub fewer_passes: u64,
    pub more_passes: u64,
    pub table: u64,
    /// Models with another answer, by both.
    pub answers: Tally,
    /// Tables that were accepted before and are accepted, and how many of them are wider than the answer's: its
    /// table of before, or one made wider.
    pub still_accepted: u64,
    pub wider: u64,
    /// Tables that were refused by 33 and are accepted.
    pub newly_accepted: u64,
    /// Wall steps by kind.
    pub steps: [u64; STEP_KINDS.len()],
}

/// An answer with its k and its table.
#[derive(PartialEq)]
struct Answered {
    answer: Answer,
    k: u32,
    table: Vec<i32>,
}

impl Answered {
    fn by(run: fn(&Plant, u32, &mut [i32], &mut [i32]) -> (Answer, u32), plant: &Plant, limit: u32) -> Answered {
        let (mut table, mut work) = (vec![0; plant.table_words()], vec![0; plant.table_words()]);
        let (answer, k) = run(plant, limit, &mut table, &mut work);
        Answered { answer, k, table }
    }
}

impl Changes {
    fn note(&mut self, then: &Answered, now: &Answered) {
        self.models += (then != now) as u64;
        self.answer += (then.answer != now.answer) as u64;
        self.fewer_passes += (then.k > now.k) as u64;
        self.more_passes += (then.k < now.k) as u64;
        self.table += (then.table != now.table) as u64;
        if then.answer != now.answer {
            note(&mut self.answers, format!("{} to {}", then.answer.word(), now.answer.word()));
        }
    }

    /// Counts the wall steps from all parts of a table.
    fn note_steps(&mut self, plant: &Plant, table: &[i32]) {
        for l in 0..plant.sizes.locations {
            let location = plant.location(l);
            if let Some(start) = location.start_part() {
                self.note_part(&start, &location, true);
            }
            let pieces = table[plant.location_places(l)].chunks_exact(plant.sizes.face_words());
            pieces.filter(|words| words[0] == 1).for_each(|words| self.note_part(&words[1..], &location, false));
        }
    }

    fn note_part(&mut self, part: &[i32], location: &Location, starts: bool) {
        let part = &part[..location.invariant.len()];
        for face in 0..location.invariant.len() {
            let d = 2 * (face / 2);
            let (range, rate, b) = (&part[d..d + 2], &location.rates[d..d + 2], location.invariant[face]);
            let to_wall = delays(range[0] as i64, range[1] as i64, rate[0] as i64, rate[1] as i64, b as i64);
            if let Some(to_wall) = to_wall {
                let kinds = kinds_of(part, location, face, to_wall);
                self.steps.iter_mut().zip(kinds).for_each(|(count, is)| *count += is as u64);
                self.steps[15] += (starts && !kinds[0]) as u64;
            }
        }
    }
}

fn finite(end: End) -> bool {
    matches!(end, End::At(_))
}

fn same_end(x: End, y: End) -> bool {
    match (x, y) {
        (End::At(x), End::At(y)) => x.same(y),
        (x, y) => finite(x) == finite(y),
    }
}

/// The kinds, all but the last, of the wall step to a face, of which these are the delays of before.
fn kinds_of(part: &[i32], location: &Location, face: usize, to_wall: Delays) -> [bool; 15] {
    let n = part.len() / 2;
    let (rates, invariant) = (location.rates, location.invariant);
    let inside = delays_inside(part, rates, invariant).expect("a part lies inside its invariant");
    let now = to_wall.cut_to(inside);
    let changed = !now.is_some_and(|now| same_end(now.latest, to_wall.latest));
    let mut out = [0; MAX_BOX];
    let mut gave_a_face = || before::wall_step(n, part, rates, invariant, face / 2, invariant[face], &mut out);
    // The variables that are the first to leave.
    let leaves = |&i: &usize| {
        let one = |list: &[i32]| [list[2 * i], list[2 * i + 1]];
        let alone = delays_inside(&one(part), &one(rates), &one(invariant)).expect("a part lies inside its invariant");
        changed && same_end(alone.latest, inside.latest)
    };
    let first: Vec<usize> = (0..n).filter(leaves).collect();
    let first_has = |is: &dyn Fn(usize) -> bool| first.iter().any(|&i| is(i));
    let one_left = |now: Delays| same_end(now.latest, End::At(now.earliest));
    let fraction = |now: Delays| matches!(now.latest, End::At(last) if last.num % last.den != 0);
    [
        !changed,
        now.is_some_and(|now| !finite(now.latest)),
        changed && now.is_some(),
        now.is_none(),
        now.is_none() && gave_a_face(),
        changed && now.is_some_and(one_left),
        changed && now.is_some_and(fraction),
        changed && !finite(to_wall.latest),
        first_has(&|i| rates[2 * i] > 0),
        first_has(&|i| rates[2 * i + 1] < 0),
        first_has(&|i| i == 0),
        first_has(&|i| i == n - 1),
        first_has(&|i| i < face / 2),
        first_has(&|i| i > face / 2),
        first.len() == 2,
    ]
}

/// What must not be, of the answers of before and of now.
fn breach(plant: &Plant, then: &Answered, now: &Answered) -> Option<&'static str> {
    if now.answer == Answer::Unknown && then.answer != Answer::Unknown {
        return Some("unknown, and was not before");
    }
    if now.answer == Answer::Unknown && now.k < then.k {
        return Some("unknown after fewer passes than before");
    }
    if now == then {
        return None;
    }
    let size = plant.table_words();
    let (mut inner, mut outer) = (vec![0; size], vec![0; size]);
    let (mut next_inner, mut next_outer) = (inner.clone(), outer.clone());
    for _ in 0..now.k.min(MOST_PASSES) {
        pass(plant, &inner, &mut next_inner);
        before::pass(plant, &outer, &mut next_outer);
        std::mem::swap(&mut inner, &mut next_inner);
        std::mem::swap(&mut outer, &mut next_outer);
        if !lies_inside(plant, &inner, &outer) {
            return Some("a table does not lie inside the one of before");
        }
    }
    None
}

/// A table with some pieces wider, and what these passes add to it.
pub(crate) fn wider(random: &mut Random, plant: &Plant, table: &[i32], pass: Pass) -> Vec<i32> {
    let mut wide = table.to_vec();
    let pieces: Vec<_> = plant.all_pieces().collect();
    for _ in 0..1 + random.below(3) {
        let piece = random.pick(&pieces);
        let mut one = vec![0; table.len()];
        put_random_piece(random, plant, &mut one, piece);
        let places = plant.piece_places(piece);
        if one[places.start] == 1 {
            join(&mut wide[places.clone()], &one[places][1..]);
        }
    }
    close_by(plant, &mut wide, pass_budget(plant).min(40), pass);
    wide
}

impl Comparison {
    /// A model with the steps of before: what changed is counted, what must not change is held, and tables that
    /// were accepted are given to the tested calls.
    pub(crate) fn changes_case(&mut self, plant: &Plant, limit: u32) -> Result<(), Difference> {
        let now = Answered::by(run_quick, plant, limit);
        self.counts.changes.note_steps(plant, &now.table);
        let most = limit.min(pass_budget(plant).max(now.k.saturating_mul(2)));
        let then = Answered::by(before::run, plant, most);
        if then.answer == Answer::Unfinished && most < limit {
            self.counts.changes.not_compared += 1;
            return Ok(());
        }
        self.counts.changes.note(&then, &now);
        if let Some(problem) = breach(plant, &then, &now) {
            let model = hex(&model_file(plant.words()));
            return Err(Difference { text: format!("{problem}, limit {limit}\nmodel {model}") });
        }
        if then.answer == Answer::Safe && then.table != now.table {
            self.table_of_before(plant, &then.table)?;
        }
        if then.answer == Answer::Safe && self.random.chance(1, 2) {
            let wide = wider(&mut self.random, plant, &then.table, before::pass);
            if wide != now.table {
                self.table_of_before(plant, &wide)?;
            }
        }
        Ok(())
    }

    /// A table of before, other than the answer's, to both checks.
    fn table_of_before(&mut self, plant: &Plant, table: &[i32]) -> Result<(), Difference> {
        let label = "a table of before";
        let input = Input::of_model(plant.words()).with_table(table);
        let by_words = self.call(label, Call::Check, &input, &Lengths::default(), Desk::default())?.number;
        let by_file = self.check(label, &model_file(plant.words()), &table_file(plant, table))?;
        let accepted = by_words == 100 && by_file == 100;
        let held = self.counts.changes.still_accepted;
        self.hold_accepted(plant, table, accepted)?;
        self.counts.changes.wider += self.counts.changes.still_accepted - held;
        Ok(())
    }

    /// A table that was accepted before is accepted. Counts it, and those that were refused.
    pub(crate) fn hold_accepted(&mut self, plant: &Plant, table: &[i32], accepted: bool) -> Result<(), Difference> {
        match before::ask_table(plant, table) {
            Ok(()) if accepted => self.counts.changes.still_accepted += 1,
            Ok(()) => {
                let (model, table) = (hex(&model_file(plant.words())), hex(&table_file(plant, table)));
                let text = format!("a table accepted before is refused\nmodel {model}\ntable {table}");
                return Err(Difference { text });
            }
            Err(33) if accepted => self.counts.changes.newly_accepted += 1,
            Err(_) => {}
        }
        Ok(())
    }
}
