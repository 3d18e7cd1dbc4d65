//! The fixed pairs of document 02's T-13, worked out small: for each of its conditions pairs that break this one alone,
//! and for which its promise does not hold; and pairs that keep them all.

use crate::c_calls::exports::Call;
use crate::c_calls::slices::{Input, Lengths, Slice};
use crate::fixed::documents::answer;
use crate::fixed::starts::unwanted;
use crate::held::compare::{Comparison, Difference, MOST_ROOM};
use crate::held::pairing::{files_stay, first_stays, never_unknown, quoted, second_safe, Compared, Kind, Pair};
use crate::inputs::draft::{Draft, LocationDraft, SwitchDraft};
use crate::inputs::examples::{
    at_rest, brine_tank, brine_tank_steadier, hand_filled, plant_p, plant_p_behind, plant_p_cut, plant_p_from,
    plant_p_unknown, strokes, three_tanks, BY_HAND, OVER_THE_RIM,
};
use crate::reference::desk::Desk;
use crate::reference::files::model_file;
use crate::reference::model::{Edition, Plant};
use crate::reference::narrower::Condition;

/// A pair that breaks one condition. The first is safe.
pub struct Needed {
    pub label: &'static str,
    pub condition: Condition,
    pub first: Draft,
    pub second: Draft,
    /// What qii_check and check give for the second with the first's table.
    pub refused: [u32; 2],
    /// Code and passes of the second.
    pub answered: (u32, u32),
}

/// A pair that keeps all conditions, with the passes of both.
pub struct Kept {
    pub label: &'static str,
    pub first: Draft,
    pub second: Draft,
    pub passes: [u32; 2],
}

/// More passes than any of the first models takes.
const LIMIT: u32 = 99;

const SAFE: u32 = 100;
const UNKNOWN: u32 = 101;

/// P with other rates of y. It is safe with x 2..8 on y = 10; y from 2 can be at 4 with x 9 if it may stand still.
fn p_with_rates(y: [i32; 2]) -> Draft {
    let mut draft = plant_p();
    draft.locations[0].rates[2..].copy_from_slice(&y);
    draft
}

/// P without a start.
fn without_start(mut draft: Draft) -> Draft {
    draft.locations[0].start = None;
    draft
}

/// P with its wall of y = 10 at another level.
fn with_wall(mut draft: Draft, level: i32) -> Draft {
    draft.locations[0].invariant[3] = level;
    draft
}

/// P with its location twice.
fn twice(mut draft: Draft) -> Draft {
    draft.locations.push(draft.locations[0].clone());
    draft
}

/// In location 0 x rises by 1 from 0 to 10, with y 2..5, which stands. Then a switch leads to location 1, where all
/// stands still; there y 5..9 is forbidden. In location 2, where nothing leads, all is.
fn carried(guard: [i32; 2], mask: u32, reset: [i32; 2]) -> Draft {
    let location = |x: i32, start: Option<Vec<i32>>| LocationDraft {
        invariant: vec![0, 10, 0, 10],
        rates: vec![x, x, 0, 0],
        start,
    };
    let switch = SwitchDraft {
        source: 0,
        target: 1,
        d: 0,
        source_side: 1,
        target_side: 1,
        mask,
        guard: vec![10, 10, guard[0], guard[1]],
        reset: vec![10, 10, reset[0], reset[1]],
    };
    Draft {
        n: 2,
        edition: Edition::Two,
        locations: vec![location(1, Some(vec![0, 0, 2, 5])), location(0, None), location(0, None)],
        switches: vec![switch],
        forbidden: vec![(1, vec![0, 10, 5, 9]), (2, vec![0, 10, 0, 10])],
        ..Draft::default()
    }
}

/// Carried with y 2..4 alone, and safe after two passes.
fn carried_low() -> Draft {
    carried([2, 4], 0, [0, 10])
}

/// Carried with something done to its switches.
fn with_switches(mut draft: Draft, change: fn(&mut Vec<SwitchDraft>)) -> Draft {
    change(&mut draft.switches);
    draft
}

/// Carried with other forbidden boxes.
fn with_forbidden(forbidden: &[(usize, [i32; 4])]) -> Draft {
    let forbidden = forbidden.iter().map(|(location, bounds)| (*location, bounds.to_vec())).collect();
    Draft { forbidden, ..carried_low() }
}

fn needed_by(
    label: &'static str,
    condition: Condition,
    [first, second]: [Draft; 2],
    refused: [u32; 2],
    answered: (u32, u32),
) -> Needed {
    Needed { label, condition, first, second, refused, answered }
}

/// Another n, L, invariant or cut.
fn needed_of_places() -> Vec<Needed> {
    use Condition::{Cuts, Invariants, Locations, Variables};
    let beyond = || Draft { forbidden: vec![(0, vec![0, 10, 12, 12])], ..plant_p() };
    let at_4 = Draft { cuts: vec![(0, 0, 4)], ..plant_p() };
    let of_y = Draft { cuts: vec![(0, 1, 5)], ..plant_p() };
    vec![
        needed_by("another n", Variables, [plant_p(), at_rest(1)], [32, 36], (SAFE, 0)),
        needed_by("a location more", Locations, [plant_p(), twice(plant_p())], [20, 33], (SAFE, 1)),
        needed_by("a wall further out", Invariants, [plant_p(), with_wall(plant_p(), 11)], [32, 32], (SAFE, 1)),
        // The forbidden box lies beyond the first's wall.
        needed_by("with a box there", Invariants, [beyond(), with_wall(beyond(), 20)], [32, 32], (UNKNOWN, 0)),
        needed_by("another value", Cuts, [plant_p_cut(), at_4], [32, 32], (SAFE, 1)),
        // The face on y = 10 is one piece then.
        needed_by("another variable", Cuts, [plant_p_cut(), of_y], [32, 32], (SAFE, 1)),
        // The first's words are read face by face: on y = 10 there is nothing.
        needed_by("a cut less", Cuts, [plant_p_cut(), plant_p()], [33, 36], (SAFE, 1)),
        needed_by("a cut more", Cuts, [plant_p(), plant_p_cut()], [20, 36], (SAFE, 1)),
        needed_by("a cut that keeps it safe", Cuts, [three_tanks(true), three_tanks(false)], [32, 36], (UNKNOWN, 2)),
    ]
}

/// A wider rate or start part.
fn needed_of_locations() -> Vec<Needed> {
    use Condition::{Rates, Starts};
    let unguarded = || without_start(plant_p_unknown());
    let narrow_start = || plant_p_from([0, 0, 3, 5]);
    vec![
        needed_by("faster", Rates, [plant_p(), p_with_rates([1, 3])], [33, 33], (SAFE, 1)),
        needed_by("slower", Rates, [plant_p(), p_with_rates([0, 2])], [33, 33], (UNKNOWN, 0)),
        needed_by("a wider start", Starts, [narrow_start(), plant_p()], [33, 33], (SAFE, 1)),
        needed_by("a start more", Starts, [without_start(plant_p()), plant_p()], [33, 33], (SAFE, 1)),
        needed_by("a start at what is forbidden", Starts, [unguarded(), plant_p_unknown()], [33, 33], (UNKNOWN, 0)),
    ]
}

/// A wider guard or reset box, another mask, another source or target, or a switch more.
fn needed_of_switches() -> Vec<Needed> {
    use Condition::Switches;
    let all = || carried([2, 5], 0, [0, 10]);
    let to_2 = with_switches(carried_low(), |switches| switches[0].target = 2);
    let from_2 = with_switches(all(), |switches| switches[0].source = 2);
    let none = || with_switches(all(), Vec::clear);
    let low_box = carried([2, 5], 0, [0, 4]);
    // Unmasked, y 2..5 is never 6 to 8; masked, it becomes 7.
    let [kept, set] = [carried([2, 5], 0, [6, 8]), carried([2, 5], 0b10, [7, 7])];
    let [doses, more] = [carried([2, 5], 0b10, [2, 4]), carried([2, 5], 0b10, [2, 5])];
    vec![
        needed_by("a wider guard", Switches, [carried_low(), all()], [33, 33], (UNKNOWN, 2)),
        needed_by("a wider reset box", Switches, [low_box, all()], [33, 33], (UNKNOWN, 2)),
        needed_by("a wider reset range", Switches, [doses, more], [33, 33], (UNKNOWN, 2)),
        needed_by("another mask", Switches, [kept, set], [33, 33], (UNKNOWN, 2)),
        needed_by("another target", Switches, [carried_low(), to_2], [33, 33], (UNKNOWN, 2)),
        needed_by("another source", Switches, [from_2, all()], [33, 33], (UNKNOWN, 2)),
        needed_by("a switch more", Switches, [none(), all()], [33, 33], (UNKNOWN, 2)),
    ]
}

/// A wider forbidden box, one in another location, or one more.
fn needed_of_boxes() -> Vec<Needed> {
    use Condition::Forbidden;
    let wider = with_forbidden(&[(1, [0, 10, 4, 9])]);
    let elsewhere = with_forbidden(&[(0, [0, 10, 5, 9])]);
    // Both halves lie inside one of the first's, and together they hold more than either.
    let [halves, across] = [&[(1, [0, 10, 5, 6]), (1, [0, 10, 7, 9])][..], &[(1, [0, 10, 5, 9])]].map(with_forbidden);
    let one_more = with_forbidden(&[(1, [0, 10, 5, 9]), (1, [10, 10, 3, 3])]);
    vec![
        needed_by("a wider box", Forbidden, [carried_low(), wider], [34, 34], (UNKNOWN, 2)),
        needed_by("a box elsewhere", Forbidden, [carried_low(), elsewhere], [34, 34], (UNKNOWN, 0)),
        needed_by("a box more", Forbidden, [carried_low(), one_more], [34, 34], (UNKNOWN, 2)),
        needed_by("a box across two", Forbidden, [halves, across], [100, 100], (SAFE, 2)),
    ]
}

/// Pairs that break one condition. In all but the last the first's table is refused for the second: a box inside two of
/// the first's together is not inside one, though nothing can go wrong with it.
pub fn needed() -> Vec<Needed> {
    let mut all = needed_of_places();
    all.extend(needed_of_locations());
    all.extend(needed_of_switches());
    all.extend(needed_of_boxes());
    all
}

pub fn kept() -> Vec<Kept> {
    let kept_by = |label, [first, second]: [Draft; 2], passes| Kept { label, first, second, passes };
    let measured = || Draft { edition: Edition::One, ..hand_filled([3, 3], OVER_THE_RIM) };
    let by_hand = || hand_filled(BY_HAND, OVER_THE_RIM);
    let twofold = with_switches(by_hand(), |switches| {
        switches.extend(switches.clone());
        switches[2].reset[2] = 4;
    });
    // A start box behind the wall is no start part, whatever the first has there.
    let behind = plant_p_from([0, 0, 11, 15]);
    let crossing = plant_p_from([-3, 0, 2, 5]);
    vec![
        kept_by("the same plant", [plant_p(), plant_p()], [1, 1]),
        kept_by("a steadier pump", [p_with_rates([1, 2]), p_with_rates([1, 1])], [1, 1]),
        kept_by("a start box across the wall", [plant_p(), crossing], [1, 1]),
        kept_by("a start box behind the wall", [without_start(plant_p()), behind], [0, 0]),
        kept_by("both start boxes behind the wall", [plant_p_behind(10), plant_p_behind(10)], [0, 0]),
        kept_by("a measured dose, in edition 1", [by_hand(), measured()], [4, 3]),
        kept_by("the same dose in edition 2", [measured(), hand_filled([3, 3], OVER_THE_RIM)], [3, 3]),
        kept_by("two switches on one", [by_hand(), twofold], [4, 4]),
        kept_by("the tank of brine", [brine_tank(), brine_tank_steadier()], [5, 3]),
        // With all levels at first there is little left to reach; from 0 on every level takes two passes, and one more
        // is for the corner x 0, y 20.
        kept_by("more passes", [strokes(20, [0, 20]), strokes(20, [0, 0])], [1, 41]),
    ]
}

impl Comparison {
    pub(crate) fn fixed_narrower(&mut self) -> Result<(), Difference> {
        for case in needed() {
            self.needed_case(&case)?;
        }
        for case in kept() {
            self.kept_case(&case)?;
        }
        Ok(())
    }

    /// The first is safe; its table, as words and as a file, is refused for the second, and the second is answered.
    fn needed_case(&mut self, case: &Needed) -> Result<(), Difference> {
        let (label, model) = (case.label, case.first.words());
        let plant = Plant::from_words(&model).expect("the first of a pair passes its questions");
        let lengths = Lengths::of_table(plant.table_words()).with(Slice::FileRoom, plant.table_file_room());
        let input = Input::of_model(&model).under(LIMIT);
        let found = self.fixed(label, Call::Analyse, &input, &lengths, Desk::default())?;
        let with_table = input.with_table(found.words());
        let written = self.fixed(label, Call::WriteTable, &with_table, &lengths, Desk::default())?;
        if found.number != SAFE {
            return Err(unwanted(label, SAFE, found.number));
        }
        let second = case.second.words();
        let of_second = with_table.with_model(&second);
        self.gives(label, Call::Check, &of_second, &lengths, (case.refused[0], 0))?;
        let (file, table) = (model_file(&second), &written.file()[..written.value() as usize]);
        self.check_gives(label, &file, table, case.refused[1] as u64)?;
        let (code, passes) = case.answered;
        self.decide_gives(label, &file, MOST_ROOM, LIMIT, answer(code as u64, passes as u64))?;
        Ok(())
    }

    /// All that is promised of a pair, with the passes of both.
    fn kept_case(&mut self, case: &Kept) -> Result<(), Difference> {
        let (first, second) = (case.first.words(), case.second.words());
        let [first, second] =
            &[&first, &second].map(|words| Plant::from_words(words).expect("a pair passes its questions"));
        let pair = Pair { first, second, kind: Kind::Narrower };
        let calls = &mut Compared(self, pair.kind);
        let quote = quoted(calls, &pair)?;
        let lengths = Lengths::of_table(quote.words as usize).with(Slice::Words, quote.words as usize + 3);
        let limits = [quote.ceiling as u32, u32::MAX];
        let found =
            first_stays(calls, &pair, LIMIT, &lengths)?.ok_or_else(|| unwanted(case.label, SAFE, "not safe"))?;
        let again = second_safe(calls, &pair, found.words(), &limits, &lengths)?.expect("there are limits");
        let in_files = files_stay(calls, &pair, LIMIT, &limits, quote.bytes as usize)?;
        let unfinished = never_unknown(calls, &pair, case.passes[0], &quote)?;
        if !in_files
            || unfinished != (case.passes[0] < case.passes[1])
            || [found.value(), again.value()] != case.passes.map(u64::from)
        {
            return Err(unwanted(case.label, case.passes, (in_files, unfinished, found.value(), again.value())));
        }
        self.counts.fixed += 1;
        Ok(())
    }
}
