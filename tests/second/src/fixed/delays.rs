//! The fixed cases of delays that all variables can live with (document 02, T-06): answers and tables worked out by
//! hand, of all calls.

use crate::fixed::starts::{answered_as, Answered, OfTable};
use crate::held::compare::{Comparison, Difference};
use crate::inputs::draft::{Draft, LocationDraft};
use crate::inputs::examples::{standing_pump, worn_pump, RUNS_DRY, RUNS_OVER};
use crate::reference::model::LEVEL;

/// A plant of one location, from one point.
fn plant<const N: usize>(walls: [[i32; 2]; N], rates: [[i32; 2]; N], start: [i32; N]) -> Draft {
    let location = LocationDraft {
        invariant: walls.concat(),
        rates: rates.concat(),
        start: Some(start.iter().flat_map(|&level| [level, level]).collect()),
    };
    Draft { n: N, locations: vec![location], ..Draft::default() }
}

/// x = 11 is met after 11/2, when y, rising or falling by 1 from 5, is past its wall by 1/2.
fn half_a_level_past(rate: i32) -> Draft {
    plant([[0, 11], [0, 10]], [[2, 2], [rate, rate]], [0, 5])
}

/// x = 11 is met after 5 or more, and y is full after 5.
fn one_delay() -> Draft {
    plant([[0, 11], [0, 10], [0, 10]], [[0, 2], [1, 1], [-1, -1]], [1, 5, 10])
}

/// x = 12 is met after 11/2 or more, and y is full after 11/2.
fn one_fraction() -> Draft {
    plant([[0, 12], [0, 11], [0, 20]], [[0, 2], [2, 2], [1, 1]], [1, 0, 0])
}

/// x = 1,000,000 is met after 2,000 to 2,000,000, and y is full after 2,000,000/999; z falls by this rate.
fn far(rate: i32) -> Draft {
    plant([[-LEVEL, LEVEL]; 3], [[1, 1_000], [999, 999], [rate, rate]], [-LEVEL, -LEVEL, LEVEL])
}

fn near_walls() -> Vec<Answered> {
    let one: [&[i32]; 3] = [&[0, 1, 11, 11, 10, 10, 5, 5], &[0, 3, 1, 11, 10, 10, 5, 5], &[0, 5, 1, 1, 5, 5, 10, 10]];
    let in_pieces: [&[i32]; 4] = [
        &[0, 1, 0, 11, 11, 10, 10, 5, 5],
        &[0, 3, 0, 1, 6, 10, 10, 5, 5],
        &[0, 3, 1, 6, 11, 10, 10, 5, 5],
        &[0, 5, 0, 1, 1, 5, 5, 10, 10],
    ];
    let fraction: [&[i32]; 4] = [
        &[0, 1, 12, 12, 11, 11, 5, 6],
        &[0, 2, 1, 1, 0, 0, 0, 0],
        &[0, 3, 1, 12, 11, 11, 5, 6],
        &[0, 4, 1, 1, 0, 0, 0, 0],
    ];
    let all_stay = plant([[0, 10]; 3], [[0, 0], [-1, 1], [0, 2]], [0, 5, 5]);
    let endless: [&[i32]; 4] = [
        &[0, 0, 0, 0, 0, 10, 5, 10],
        &[0, 2, 0, 0, 0, 0, 5, 10],
        &[0, 3, 0, 0, 10, 10, 5, 10],
        &[0, 5, 0, 0, 0, 10, 10, 10],
    ];
    let cut = Draft { cuts: vec![(0, 0, 6)], ..one_delay() };
    vec![
        answered_as(
            "past the high wall",
            half_a_level_past(1),
            100,
            1,
            &[&[0, 0, 0, 0, 5, 5], &[0, 3, 10, 10, 10, 10]],
        ),
        answered_as("past the low wall", half_a_level_past(-1), 100, 1, &[&[0, 0, 0, 0, 5, 5], &[0, 2, 10, 10, 0, 0]]),
        answered_as("one delay", one_delay(), 100, 1, &one),
        answered_as("one delay, cut at x = 6", cut, 100, 1, &in_pieces),
        answered_as("one delay, a fraction", one_fraction(), 100, 1, &fraction),
        answered_as("endless, as all can stay", all_stay, 100, 1, &endless),
    ]
}

fn far_walls() -> Vec<Answered> {
    const L: i32 = LEVEL;
    let start = |face: i32| [0, face, -L, -L, -L, -L, L, L];
    // After 2,000 alone z is empty.
    let at_once: [&[i32]; 5] = [
        &start(0),
        &[0, 1, L, L, 998_000, 998_000, -L, -L],
        &start(2),
        &[0, 4, -998_000, L, 998_000, 998_000, -L, -L],
        &start(5),
    ];
    // After 2,000,000/999, which is above 2,002, y is full and z empty; the first pass has z -1,000,000 on y's wall
    // and y 1,000,000 on z's, the second what x's wall has there.
    let together: [&[i32]; 6] = [
        &start(0),
        &[0, 1, L, L, 998_000, L, -L, -998_000],
        &start(2),
        &[0, 3, -997_998, L, L, L, -L, -998_000],
        &[0, 4, -997_998, L, 998_000, L, -L, -L],
        &start(5),
    ];
    vec![
        answered_as("far walls, one delay", far(-1_000), 100, 1, &at_once),
        answered_as("far walls, until 2,000,000/999", far(-999), 100, 2, &together),
    ]
}

fn pumps() -> Vec<Answered> {
    let standing: [&[i32]; 5] = [
        &[0, 0, 0, 0, 5, 10, 0, 10],
        &[0, 1, 10, 10, 5, 10, 0, 10],
        &[0, 3, 0, 10, 10, 10, 0, 10],
        &[0, 4, 0, 10, 5, 10, 0, 0],
        &[0, 5, 0, 10, 5, 10, 10, 10],
    ];
    let worn: [&[i32]; 5] = [
        &[0, 1, 100, 100, 57, 100, 40, 93],
        &[0, 3, 75, 100, 100, 100, 40, 93],
        &[1, 0, 0, 0, 57, 100, 40, 93],
        &[1, 1, 100, 100, 57, 100, 40, 93],
        &[1, 3, 0, 100, 100, 100, 40, 93],
    ];
    vec![
        answered_as("the standing pump", standing_pump(), 100, 6, &standing),
        answered_as("the worn pump", worn_pump(RUNS_DRY), 100, 3, &worn),
        answered_as("the worn pump and the rim", worn_pump(RUNS_OVER), 100, 3, &worn),
    ]
}

/// Tables with and without what only the steps of before led to.
fn tables() -> Vec<OfTable> {
    let past = |face_1: [i32; 5], face_3: [i32; 5]| [[1, 0, 0, 5, 5], face_1, [0; 5], face_3].concat();
    // The worn pump's faces: location 0's x = 100, y = 100 and, of before, z = 0; the same of location 1 and x = 0.
    let worn = |store: i32, empty: [i32; 14]| {
        let on_x = |x: i32| [1, x, x, 57, 100, store, 93];
        let on_y = |x: i32| [1, x, 100, 100, 100, store, 93];
        let (none, first, second) = ([0; 7], &empty[..7], &empty[7..]);
        let filling = [&none[..], &on_x(100), &none, &on_y(75), first, &none].concat();
        [&filling[..], &on_x(0), &on_x(100), &none, &on_y(0), second, &none].concat()
    };
    let none = [0; 14];
    let empty = [1, 75, 100, 57, 100, 0, 0, 1, 0, 100, 57, 100, 0, 0];
    vec![
        ("past the wall", half_a_level_past(1), past([0; 5], [1, 10, 10, 10, 10]), 100),
        (
            "past the wall, with the face of before",
            half_a_level_past(1),
            past([1, 11, 11, 10, 10], [1, 10, 11, 10, 10]),
            100,
        ),
        (
            "past the wall, what that face leads to left out",
            half_a_level_past(1),
            past([1, 11, 11, 10, 10], [1, 10, 10, 10, 10]),
            33,
        ),
        ("the worn pump's", worn_pump(RUNS_DRY), worn(40, none), 100),
        ("the worn pump's from 41", worn_pump(RUNS_DRY), worn(41, none), 33),
        ("the worn pump's from 36", worn_pump(RUNS_DRY), worn(36, none), 100),
        ("the worn pump's from 35", worn_pump(RUNS_DRY), worn(35, none), 34),
        ("the worn pump's of before", worn_pump(RUNS_DRY), worn(0, empty), 34),
        ("the worn pump's of before, with the rim", worn_pump(RUNS_OVER), worn(0, empty), 100),
        ("the worn pump's from 40, with the rim", worn_pump(RUNS_OVER), worn(40, none), 100),
    ]
}

impl Comparison {
    pub(crate) fn fixed_delays(&mut self) -> Result<(), Difference> {
        for case in near_walls().into_iter().chain(far_walls()).chain(pumps()) {
            self.answered_by_hand(&case)?;
        }
        for (label, draft, table, number) in tables() {
            self.checks_give(label, &draft, &table, number)?;
        }
        Ok(())
    }
}
