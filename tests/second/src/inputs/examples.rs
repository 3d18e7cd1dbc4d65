//! Document 01's plant P, source 000's examples and some plants more, as drafts.

use crate::inputs::draft::{grid, Draft, LocationDraft, SwitchDraft};
use crate::reference::model::{Edition, HEAD_WORDS, LEVEL, MAX_FORBIDDEN, MAX_LOCATIONS, MAX_SWITCHES, MAX_VARIABLES};

/// Places in P's words: its location (invariant 4 words, rates 4, flag, start box 4), its forbidden box (location, box
/// 4), its cut; and how many words it has.
pub const P_LOCATION: usize = HEAD_WORDS;
pub const P_START_FLAG: usize = P_LOCATION + 8;
pub const P_FORBIDDEN: usize = P_LOCATION + 13;
pub const P_CUT: usize = P_FORBIDDEN + 5;
pub const P_WORDS: usize = P_CUT + 2;

/// Plant P of document 01.
pub fn plant_p() -> Draft {
    Draft {
        n: 2,
        locations: vec![LocationDraft {
            invariant: vec![0, 10, 0, 10],
            rates: vec![1, 1, 1, 2],
            start: Some(vec![0, 0, 2, 5]),
        }],
        switches: vec![],
        forbidden: vec![(0, vec![9, 10, 0, 4])],
        ..Draft::default()
    }
}

/// P with x 5, y 9..10 forbidden.
pub fn plant_p_unknown() -> Draft {
    Draft { forbidden: vec![(0, vec![5, 5, 9, 10])], ..plant_p() }
}

/// P from another start box (document 02, T-02).
pub fn plant_p_from(start: [i32; 4]) -> Draft {
    let mut draft = plant_p();
    draft.locations[0].start = Some(start.to_vec());
    draft
}

/// The words of P with this start flag and start box, which need not pass the questions.
pub fn plant_p_with_start(flag: i32, start: [i32; 4]) -> Vec<i32> {
    let mut words = plant_p().words();
    words[P_START_FLAG] = flag;
    words[P_START_FLAG + 1..P_FORBIDDEN].copy_from_slice(&start);
    words
}

/// P from x 3, y 4..15, with x 3, y 5..6 forbidden, which only the start part, y 4..10, touches.
pub fn plant_p_starting_forbidden() -> Draft {
    Draft { forbidden: vec![(0, vec![3, 3, 5, 6])], ..plant_p_from([3, 3, 4, 15]) }
}

/// Its table at rest, face 3 alone, with x 3..9: y = 10 is met after 0 to 6, and x = 10 with y from 11 up.
pub fn plant_p_starting_forbidden_table() -> Vec<i32> {
    [vec![0; 15], vec![1, 3, 9, 10, 10]].concat()
}

/// P with y falling by 1 to 2, from another start box, and with another forbidden box.
fn plant_p_falling(start: [i32; 4], forbidden: [i32; 4]) -> Draft {
    let mut draft = plant_p_from(start);
    draft.locations[0].rates = vec![1, 1, -2, -1];
    draft.forbidden = vec![(0, forbidden.to_vec())];
    draft
}

/// P with y falling by 1 to 2, from x 0, y 5..15, and x 10, y 3..5 forbidden. x = 10 is met after 10: from the
/// start part, y 5..10, with y 0; from the whole start box it would be with y 0..5.
pub fn plant_p_falling_short() -> Draft {
    plant_p_falling([0, 0, 5, 15], [10, 10, 3, 5])
}

/// P with y falling by 1 to 2, from x 0, y 11..15, and y 8..9 forbidden. Under a wall at y = 10 that start box
/// lies behind the wall, and there is no start; under one at 15 the forbidden box is touched.
pub fn plant_p_behind(wall: i32) -> Draft {
    let mut draft = plant_p_falling([0, 0, 11, 15], [0, 10, 8, 9]);
    draft.locations[0].invariant[3] = wall;
    draft
}

/// A start part on both sides of its location's cut, of a start box that crosses walls. x = 20 is met after 5
/// to 20, and y can rise for 8: after 5 to 8, with z 27..35. From the whole start box z would be 27..40.
pub fn start_part_across_a_cut() -> Draft {
    Draft {
        n: 3,
        locations: vec![LocationDraft {
            invariant: vec![0, 20, 0, 10, 0, 40],
            rates: vec![1, 1, 1, 1, -1, -1],
            start: Some(vec![-5, 15, 2, 2, 35, 50]),
        }],
        cuts: vec![(0, 0, 10)],
        ..Draft::default()
    }
}

/// P's answer's table.
pub fn plant_p_table() -> Vec<i32> {
    vec![1, 0, 0, 2, 5, 0, 0, 0, 0, 0, 0, 0, 0, 0, 0, 1, 2, 8, 10, 10]
}

/// P's wider table, accepted too: face 0 with y 2..10, face 1 with y 10, face 3 with x 0..10.
pub fn plant_p_wider() -> Vec<i32> {
    vec![1, 0, 0, 2, 10, 1, 10, 10, 10, 10, 0, 0, 0, 0, 0, 1, 0, 10, 10, 10]
}

/// P cut at x = 5 (document 02, T-12). The face on y = 10, x 2..8, comes in two pieces.
pub fn plant_p_cut() -> Draft {
    Draft { cuts: vec![(0, 0, 5)], ..plant_p() }
}

/// The answer's table of P cut at x = 5: of each face the first piece, then the second.
pub fn plant_p_cut_table() -> Vec<i32> {
    let mut table = vec![0; 40];
    table[..5].copy_from_slice(&[1, 0, 0, 2, 5]);
    table[30..].copy_from_slice(&[1, 2, 5, 10, 10, 1, 5, 8, 10, 10]);
    table
}

/// The draft with every location cut in the middle of one variable, the next one from location to
/// location.
pub fn all_cut(mut draft: Draft) -> Draft {
    for (l, location) in draft.locations.iter().enumerate() {
        let variable = l % draft.n;
        let (low, high) = (location.invariant[2 * variable], location.invariant[2 * variable + 1]);
        draft.cuts.push((l, variable, low + (high - low) / 2));
    }
    draft
}

/// One location of n variables, all ranges 0..0, without a start. Words and file are whole for n 7
/// too, which is refused.
pub fn at_rest(n: usize) -> Draft {
    let location = LocationDraft { invariant: vec![0; 2 * n], rates: vec![0; 2 * n], start: None };
    Draft { n, locations: vec![location], ..Draft::default() }
}

/// Figure 1 of source 000 as a plant: x from 1 to 7, y from 1 to 7, the start is face F1
/// (x 1, y 2..5), rates x 1..1, y 1..2. The face on y = 7 is F2: x 2..6.
pub fn figure_1() -> Draft {
    Draft {
        n: 2,
        locations: vec![LocationDraft {
            invariant: vec![1, 7, 1, 7],
            rates: vec![1, 1, 1, 2],
            start: Some(vec![1, 1, 2, 5]),
        }],
        switches: vec![],
        forbidden: vec![],
        ..Draft::default()
    }
}

/// Section 3.4's box, all lengths times two so that the halves are whole: x and y 0..4,
/// t 0..8, all rates 1, start x in `start`, y = t = 0. Not divided.
pub fn whole_box(start: (i32, i32)) -> Draft {
    boxes_of(&[vec![0, 4], vec![0, 4], vec![0, 8]], start)
}

/// The same box divided at x = 2 and y = 2. Location 0 is low in x and y, 1 high in x,
/// 2 high in y, 3 high in both.
pub fn divided_box(start: (i32, i32)) -> Draft {
    boxes_of(&[vec![0, 2, 4], vec![0, 2, 4], vec![0, 8]], start)
}

fn boxes_of(walls: &[Vec<i32>], start: (i32, i32)) -> Draft {
    let mut draft = grid(walls, |_| vec![1; 6]);
    draft.locations[0].start = Some(vec![start.0, start.1, 0, 0, 0, 0]);
    draft
}

/// The least whole number whose square is at least `value`, or one less if `value` is no
/// square and `up` is false.
fn root(value: i32, up: bool) -> i32 {
    let mut r = 0;
    while r * r < value {
        r += 1;
    }
    if r * r > value && !up {
        r - 1
    } else {
        r
    }
}

/// The two-tank plant of source 000, section 4, on a grid of six by six cells.
///
/// How it was made. The report gives equation (1) but no parameters; these are chosen:
/// levels x1 and x2 run from 0 to 60 and are cut every 10; the pipe's height k3 = 20 lies
/// on a cut, so each cell has one case of the equation. Rates are in hundredths of a level
/// per unit of time (a common factor of all rates only changes the unit of time), with
/// k1 = 5, k2 = k4 = 1, so the plant rests at x2 = 25, x1 = 30. In each cell the flow
/// through the pipe and the outflow are bounded by their values at the cell's corners,
/// where the roots have their extremes, rounded outward to whole hundredths: unlike the
/// report's script this holds for the whole cell. Where x1 - x2 + k3 would be negative
/// the flow through the pipe is taken as 0 (no flow back).
///
/// Start: x1 40..45, x2 5..8. Forbidden: tank 2 at its rim, x2 from `rim` to 60, in any cell.
pub fn two_tank(rim: i32) -> Draft {
    let (k1, k3) = (500, 20);
    let walls: Vec<i32> = (0..=6).map(|i| 10 * i).collect();
    let flow = |h: i32, up: bool| root(10_000 * h.max(0), up);
    let mut draft = grid(&[walls.clone(), walls], |cell| {
        let (low_1, high_1, low_2, high_2) = (cell[0], cell[1], cell[2], cell[3]);
        let (least_head, most_head) =
            if high_2 <= k3 { (low_1, high_1) } else { (low_1 - high_2 + k3, high_1 - low_2 + k3) };
        let (least_pipe, most_pipe) = (flow(least_head, false), flow(most_head, true));
        let (least_out, most_out) = (flow(low_2, false), flow(high_2, true));
        vec![k1 - most_pipe, k1 - least_pipe, least_pipe - most_out, most_pipe - least_out]
    });
    draft.locations[4].start = Some(vec![40, 45, 5, 8]);
    for (l, location) in draft.locations.iter().enumerate() {
        if location.invariant[3] >= rim {
            draft.forbidden.push((l, vec![0, 60, rim, 60]));
        }
    }
    draft
}

/// Section 3.4's box once more, divided or not, with t 0..1 on the far wall x = 4 forbidden.
/// A run meets that wall at t 2..4 only. The whole box is safe; divided, the faces between
/// the cells lose the tie between x and t, and the answer is unknown.
pub fn guarded_box(divided: bool) -> Draft {
    let mut draft = if divided { divided_box((0, 2)) } else { whole_box((0, 2)) };
    for (l, location) in draft.locations.iter().enumerate() {
        if location.invariant[1] == 4 {
            draft.forbidden.push((l, vec![4, 4, 0, 4, 0, 1]));
        }
    }
    draft
}

/// Section 3.4's divided box from the two ends of its start, x = 2 and x = 0, y = t = 0: the cell of the
/// start stands twice, as location 0 and location 4. Forbidden is t 0..1 on the far wall x = 4; runs arrive
/// there at t = 2 and t = 4.
///
/// Both ends arrive on x = 2 of location 1, at y = t = 0 and at y = t = 2. One box for both is the report's
/// F1, which leads to its F2, and the answer is unknown. With location 1 cut at y = 1 they stay two, and it
/// is safe.
pub fn box_ends(cut: bool) -> Draft {
    let mut draft = divided_box((2, 2));
    let mut other_end = draft.locations[0].clone();
    other_end.start = Some(vec![0; 6]);
    draft.locations.push(other_end);
    for mut switch in draft.switches.clone().into_iter().filter(|switch| switch.source == 0) {
        switch.source = 4;
        draft.switches.push(switch);
    }
    draft.forbidden = vec![(1, vec![4, 4, 0, 4, 0, 1]), (3, vec![4, 4, 0, 4, 0, 1])];
    if cut {
        draft.cuts = vec![(1, 1, 1)];
    }
    draft
}

/// Three tanks: a measuring tank (variable 0) and two vats (1 and 2), all 0..10. In location 0 the first
/// recipe waits for the measuring tank to fill, with little in vat 1 and much in vat 2; in location 1 the
/// second, the other way round. In location 2 the measuring tank runs out into the vats, and each rises by
/// up to 2. Forbidden there: both vats from 6 up, more than the drain takes.
///
/// One box for both recipes on the full measuring tank has much in both vats, and the answer is unknown;
/// cut at 5 of vat 1, it is safe.
pub fn three_tanks(cut: bool) -> Draft {
    let location = |rates: [i32; 6], start: Option<[i32; 6]>| LocationDraft {
        invariant: [0, 10].repeat(3),
        rates: rates.to_vec(),
        start: start.map(|start| start.to_vec()),
    };
    let pour = |source| SwitchDraft {
        source,
        target: 2,
        d: 0,
        source_side: 1,
        target_side: 1,
        mask: 0,
        guard: vec![10, 10, 0, 10, 0, 10],
        reset: vec![10, 10, 0, 10, 0, 10],
    };
    Draft {
        n: 3,
        locations: vec![
            location([1, 1, 0, 0, 0, 0], Some([0, 0, 1, 2, 6, 7])),
            location([1, 1, 0, 0, 0, 0], Some([0, 0, 6, 7, 1, 2])),
            location([-5, -5, 0, 1, 0, 1], None),
        ],
        switches: vec![pour(0), pour(1)],
        forbidden: vec![(2, vec![0, 10, 6, 10, 6, 10])],
        cuts: if cut { vec![(2, 1, 5)] } else { vec![] },
        ..Draft::default()
    }
}

/// A water-level monitor (Alur and others, source 000's reference 1). The level rises by 1
/// while the pump is on and falls by 2 while it is off. At level 10 the monitor calls for
/// off, at 5 for on, and the pump follows when a clock has run for `lag`. The level is to
/// stay within 1 and 12. Levels and times are in tenths.
///
/// Variable 0 is the level, variable 1 the clock. Locations: 0 on, 1 off called for, 2 off,
/// 3 on called for. The clock stands still at 0 in locations 0 and 2.
pub fn water_level(lag: i32) -> Draft {
    let location = |low, high, clock, rate, ticks| LocationDraft {
        invariant: vec![low, high, 0, clock],
        rates: vec![rate, rate, ticks, ticks],
        start: None,
    };
    let mut locations = vec![
        location(0, 100, 0, 1, 0),
        location(100, 150, lag, 1, 1),
        location(50, 150, 0, -2, 0),
        location(0, 50, lag, -2, 1),
    ];
    locations[0].start = Some(vec![10, 10, 0, 0]);
    let at_level = |source, side, level, clock| SwitchDraft {
        source,
        target: source + 1,
        d: 0,
        source_side: side,
        target_side: 1 - side,
        mask: 0,
        guard: vec![level, level, 0, clock],
        reset: vec![level, level, 0, clock],
    };
    let when_run_out = |source, target, low, high| SwitchDraft {
        source,
        target,
        d: 1,
        source_side: 1,
        target_side: 0,
        mask: 0b10,
        guard: vec![low, high, lag, lag],
        reset: vec![low, high, 0, 0],
    };
    Draft {
        n: 2,
        locations,
        switches: vec![
            at_level(0, 1, 100, 0),
            when_run_out(1, 2, 100, 150),
            at_level(2, 0, 50, 0),
            when_run_out(3, 0, 0, 50),
        ],
        forbidden: vec![
            (0, vec![0, 9, 0, 0]),
            (1, vec![121, 150, 0, lag]),
            (2, vec![121, 150, 0, 0]),
            (3, vec![0, 9, 0, lag]),
        ],
        ..Draft::default()
    }
}

/// The water-level monitor with cuts in two of its four locations: location 1, where off is called for,
/// at clock 10, and location 2, where the pump is off, at level 100.
pub fn water_level_cut() -> Draft {
    Draft { cuts: vec![(1, 1, 10), (2, 0, 100)], ..water_level(20) }
}

/// What the C sample `draw` draws: a vat with one shut-off valve, which a float at a level closes. Variable 0 is the
/// level, with the rim at 100, variable 1 the clock of the valve. In location 0 the vat is filled from 10 on, by 4 to
/// 6; at the float the valve begins to close, in location 1, for 4, and up to 6 still comes in; then the pump empties
/// the vat, in location 2, down to 10. With the float at 70 the level comes to 94 at the most, with the float at 76 to
/// the rim.
pub fn shut_off(float: i32) -> Draft {
    let location = |invariant: [i32; 4], rates: [i32; 4], start: Option<Vec<i32>>| LocationDraft {
        invariant: invariant.to_vec(),
        rates: rates.to_vec(),
        start,
    };
    let at_level = |source, source_side, target, level: i32| SwitchDraft {
        source,
        target,
        d: 0,
        source_side,
        target_side: 0,
        mask: 0,
        guard: vec![level, level, 0, 0],
        reset: vec![level, level, 0, 0],
    };
    let when_shut = SwitchDraft {
        source: 1,
        target: 2,
        d: 1,
        source_side: 1,
        target_side: 0,
        mask: 0b10,
        guard: vec![float, 120, 4, 4],
        reset: vec![float, 120, 0, 0],
    };
    Draft {
        n: 2,
        locations: vec![
            location([10, float, 0, 0], [4, 6, 0, 0], Some(vec![10, 10, 0, 0])),
            location([float, 120, 0, 4], [0, 6, 1, 1], None),
            location([10, 120, 0, 0], [-5, -3, 0, 0], None),
        ],
        switches: vec![at_level(0, 1, 1, float), when_shut, at_level(2, 0, 0, 10)],
        forbidden: vec![(0, vec![100, 120, 0, 0]), (1, vec![100, 120, 0, 4]), (2, vec![100, 120, 0, 0])],
        ..Draft::default()
    }
}

/// A heated vat. Variable 0 is the level, 0 to the rim; variable 1 the heat, 0..300. In location 0 the vat is
/// emptied and heated: the level falls by 1 to 2, the heat rises by 1 to 2. Empty, it is filled in location 1
/// with fresh water, of heat 20, up to the rim, and emptied again. The drawing's start box is level 80..130,
/// heat 20..25. Forbidden while it is heated: heat from 230 up.
///
/// With the rim at 100 the vat is empty after 100 at most, with a heat of 225 at most. From a level of 130 it
/// would be after 130, with 285: with the rim there the answer is unknown.
pub fn heated_vat(rim: i32) -> Draft {
    let location = |rates: [i32; 4], start: Option<Vec<i32>>| LocationDraft {
        invariant: vec![0, rim, 0, 300],
        rates: rates.to_vec(),
        start,
    };
    let switch = |source: usize, level: i32, mask: u32, heat: [i32; 2]| SwitchDraft {
        source,
        target: 1 - source,
        d: 0,
        source_side: source,
        target_side: source,
        mask,
        guard: vec![level, level, 0, 300],
        reset: vec![level, level, heat[0], heat[1]],
    };
    Draft {
        n: 2,
        locations: vec![location([-2, -1, 1, 2], Some(vec![80, 130, 20, 25])), location([4, 5, 0, 0], None)],
        switches: vec![switch(0, 0, 0b10, [20, 20]), switch(1, rim, 0, [0, 300])],
        forbidden: vec![(0, vec![0, rim, 230, 300])],
        ..Draft::default()
    }
}

/// The case of document 02's T-06 as a plant: a pump that may stand still (variable 0), a vat that fills (1) and
/// one that drains (2), all 0..10.
pub fn standing_pump() -> Draft {
    Draft {
        n: 3,
        locations: vec![LocationDraft {
            invariant: [0, 10].repeat(3),
            rates: vec![0, 1, 1, 1, -1, -1],
            start: Some(vec![0, 0, 5, 5, 10, 10]),
        }],
        ..Draft::default()
    }
}

/// What a worn pump is to keep clear of in its store: that it runs dry, or that it runs over.
pub const RUNS_DRY: [i32; 2] = [0, 35];
pub const RUNS_OVER: [i32; 2] = [115, 120];

/// A worn pump. Variable 0 is the measuring vessel, 0..100, which the pump fills by 1 to 4; variable 1 the vat,
/// 0..100, which the main fills by 1; variable 2 the store, 0..120, which is drawn on by 1. When the vessel is
/// full, or the float closes the full vat, all stops, and in location 1 the vessel runs out. Forbidden in both
/// are some levels of the store.
///
/// By itself the vessel is full after 35/2 to 80, with down to 20 in the store. But the vat is full after 60 at
/// most: at least 40 is left in the store.
pub fn worn_pump(forbidden: [i32; 2]) -> Draft {
    let walls = vec![0, 100, 0, 100, 0, 120];
    let location = |rates: [i32; 6], start: Option<[i32; 6]>| LocationDraft {
        invariant: walls.clone(),
        rates: rates.to_vec(),
        start: start.map(|start| start.to_vec()),
    };
    let stop = |d: usize| {
        let mut full = walls.clone();
        full[2 * d] = 100;
        let (guard, reset) = (full.clone(), full);
        SwitchDraft { source: 0, target: 1, d, source_side: 1, target_side: 1, mask: 0, guard, reset }
    };
    let in_store = |l: usize| (l, vec![0, 100, 0, 100, forbidden[0], forbidden[1]]);
    Draft {
        n: 3,
        locations: vec![
            location([1, 4, 1, 1, -1, -1], Some([20, 30, 40, 45, 100, 110])),
            location([-5, -4, 0, 0, 0, 0], None),
        ],
        switches: vec![stop(0), stop(1)],
        forbidden: vec![in_store(0), in_store(1)],
        ..Draft::default()
    }
}

/// What a hand-filled cup is to keep its vat clear of while it runs out: the rim, from 11 up; or that the cup is empty
/// with the vat at 7, where the stirrer stands.
pub const OVER_THE_RIM: [i32; 4] = [11, 20, 0, 8];
pub const AT_THE_STIRRER: [i32; 4] = [7, 7, 0, 0];

/// The dose that a cup is filled with by hand.
pub const BY_HAND: [i32; 2] = [2, 5];

/// A cup that is filled by hand (document 02, T-10). Variable 0 is the vat, 0..20, variable 1 the cup, 0..8. In
/// location 0 the vat is emptied, by 1 to 2. Empty, the cup is filled with a dose, any of the range; in location 1 it
/// runs out by 1, with as much water, so that the vat rises by 2. When the cup is empty, the vat is emptied again.
///
/// A dose of 2 to 5 brings the vat to 4 to 10, below its rim at 11; one of 6 to 12. One of 7/2 brings it to 7, which
/// the doses 2 and 5 do not.
pub fn hand_filled(dose: [i32; 2], forbidden: [i32; 4]) -> Draft {
    let location = |rates: [i32; 4], start: Option<Vec<i32>>| LocationDraft {
        invariant: vec![0, 20, 0, 8],
        rates: rates.to_vec(),
        start,
    };
    Draft {
        n: 2,
        edition: Edition::Two,
        locations: vec![location([-2, -1, 0, 0], Some(vec![3, 8, 0, 0])), location([2, 2, -1, -1], None)],
        switches: vec![
            SwitchDraft {
                source: 0,
                target: 1,
                d: 0,
                source_side: 0,
                target_side: 0,
                mask: 0b10,
                guard: vec![0, 0, 0, 8],
                reset: vec![0, 0, dose[0], dose[1]],
            },
            SwitchDraft {
                source: 1,
                target: 0,
                d: 1,
                source_side: 0,
                target_side: 0,
                mask: 0,
                guard: vec![0, 20, 0, 0],
                reset: vec![0, 20, 0, 0],
            },
        ],
        forbidden: vec![(1, forbidden.to_vec())],
        ..Draft::default()
    }
}

/// A tank of brine (document 02, T-13). Variable 0 is the level, variable 1 the strength of the brine, both 0..100. In
/// location 0 the tank is filled, by 2 to 6, and what comes in dilutes it, by up to 1. Full, it gets salt by hand, to a
/// strength of 20 to 40, or a weak dose, to one of 10 to 15; in location 1 it is emptied, by 4 to 5, and the strength
/// stands. Empty, it is filled again. It may also begin in location 1, with a strong batch, of 70 to 80. Forbidden
/// while it is emptied are the strengths 45 to 65.
///
/// One box for the strong batch and the doses, on the empty tank, has all strengths between them, and the answer is
/// unknown. With location 1 cut at a strength of 60 the two stay apart, and it is safe.
pub fn brine_tank() -> Draft {
    let location = |rates: [i32; 4], start: [i32; 4]| LocationDraft {
        invariant: vec![0, 100, 0, 100],
        rates: rates.to_vec(),
        start: Some(start.to_vec()),
    };
    let dose = |least: i32, most: i32| SwitchDraft {
        source: 0,
        target: 1,
        d: 0,
        source_side: 1,
        target_side: 1,
        mask: 0b10,
        guard: vec![100, 100, 0, 100],
        reset: vec![100, 100, least, most],
    };
    let empty = SwitchDraft {
        source: 1,
        target: 0,
        d: 0,
        source_side: 0,
        target_side: 0,
        mask: 0,
        guard: vec![0, 0, 0, 100],
        reset: vec![0, 0, 0, 100],
    };
    Draft {
        n: 2,
        edition: Edition::Two,
        locations: vec![location([2, 6, -1, 0], [0, 10, 20, 30]), location([-5, -4, 0, 0], [50, 60, 70, 80])],
        switches: vec![dose(20, 40), dose(10, 15), empty],
        forbidden: vec![(1, vec![0, 100, 45, 65])],
        cuts: vec![(1, 1, 60)],
    }
}

/// The tank of brine with a steadier pump and a dose that is measured: a narrower plant. It is filled by 3 to 4 and
/// emptied by 5, from a level of up to 5 with a strength of 25 to 30, and there is no strong batch. Full, with a
/// strength of up to 50, it gets salt to a strength of 30, so that edition 1 will do, and there is no weak dose. Two
/// boxes, both inside the first's, are forbidden.
pub fn brine_tank_steadier() -> Draft {
    let mut draft = brine_tank();
    draft.edition = Edition::One;
    draft.locations[0].rates = vec![3, 4, -1, 0];
    draft.locations[0].start = Some(vec![0, 5, 25, 30]);
    draft.locations[1].rates = vec![-5, -5, 0, 0];
    draft.locations[1].start = None;
    let (mut measured, empty) = (draft.switches[0].clone(), draft.switches[2].clone());
    measured.guard = vec![100, 100, 0, 50];
    measured.reset = vec![100, 100, 30, 30];
    draft.switches = vec![empty, measured];
    draft.forbidden = vec![(1, vec![0, 100, 45, 55]), (1, vec![20, 80, 50, 65])];
    draft
}

/// What a switch sets, and nothing else (document 02, T-10). In location 0 x rises by 1 from 0 to 10, with y at 0. Then
/// a switch leads to location 1, y 0..10, where all stands still, and sets y to a range.
pub fn set_to(range: [i32; 2]) -> Draft {
    let location = |rates: [i32; 4], start: Option<Vec<i32>>| LocationDraft {
        invariant: vec![0, 10, 0, 10],
        rates: rates.to_vec(),
        start,
    };
    Draft {
        n: 2,
        edition: Edition::Two,
        locations: vec![location([1, 1, 0, 0], Some(vec![0; 4])), location([0; 4], None)],
        switches: vec![SwitchDraft {
            source: 0,
            target: 1,
            d: 0,
            source_side: 1,
            target_side: 1,
            mask: 0b10,
            guard: vec![10, 10, 0, 10],
            reset: vec![10, 10, range[0], range[1]],
        }],
        ..Draft::default()
    }
}

/// A vat that is filled by one dose a stroke: the stroke x runs from 0 to 1 and is set back, the level y rises by 1
/// meanwhile, up to `most`. From x 0 and these levels every stroke takes two passes. Nothing is forbidden.
pub fn strokes(most: i32, levels: [i32; 2]) -> Draft {
    let location = LocationDraft {
        invariant: vec![0, 1, 0, most],
        rates: vec![1; 4],
        start: Some(vec![0, 0, levels[0], levels[1]]),
    };
    let set_back = SwitchDraft {
        source: 0,
        target: 0,
        d: 0,
        source_side: 1,
        target_side: 0,
        mask: 0b01,
        guard: vec![1, 1, 0, most],
        reset: vec![0, 0, 0, most],
    };
    Draft { n: 2, locations: vec![location], switches: vec![set_back], ..Draft::default() }
}

/// Strokes up to 5,000 from an empty vat, so that the table grows for some 10,000 passes. From level `forbidden` on it
/// is forbidden.
pub fn dosing(forbidden: i32) -> Draft {
    Draft { forbidden: vec![(0, vec![0, 1, forbidden, 5_000])], ..strokes(5_000, [0, 0]) }
}

/// A plant of 64 locations for timing: a grid over n variables (n = 2: 8 by 8; n = 3: 4 by
/// 4 by 4; n = 6: 2 in each), with cells `width` wide, rates of both signs, the start in
/// location 0 and nothing forbidden in reach.
pub fn large_grid(n: usize, width: i32) -> Draft {
    let per_variable = match n {
        1 => 64,
        2 => 8,
        3 => 4,
        6 => 2,
        _ => panic!("64 is no whole power for n = {n}"),
    };
    let walls: Vec<Vec<i32>> = vec![(0..=per_variable).map(|i| i * width).collect(); n];
    let mut turn = 0;
    let mut draft = grid(&walls, |_| {
        turn += 1;
        (0..n as i32)
            .flat_map(|i| {
                let slow = (turn * 7 + i * 3) % 5 - 2; // -2..2
                let spread = (turn + i) % 3 + 1; // 1..3
                [slow, slow + spread]
            })
            .collect()
    });
    draft.locations[0].start = Some((0..n).flat_map(|_| [0, 1]).collect());
    // Boxes beyond the invariants: asked about in every search, never touched.
    for location in 0..draft.locations.len() {
        draft.forbidden.push((location, vec![-5; 2 * n]));
    }
    draft
}

/// The plant with the largest quote: as many variables, locations, switches and forbidden boxes as there can be, all
/// from the lowest level to the highest, without a start.
pub fn widest() -> Draft {
    let all = [-LEVEL, LEVEL].repeat(MAX_VARIABLES);
    let location = LocationDraft { invariant: all.clone(), rates: vec![0; 2 * MAX_VARIABLES], start: None };
    let mut guard = all.clone();
    guard[1] = -LEVEL;
    let switch = SwitchDraft {
        source: 0,
        target: MAX_LOCATIONS - 1,
        d: 0,
        source_side: 0,
        target_side: 0,
        mask: 0,
        guard,
        reset: all.clone(),
    };
    Draft {
        n: MAX_VARIABLES,
        locations: vec![location; MAX_LOCATIONS],
        switches: vec![switch; MAX_SWITCHES],
        forbidden: vec![(0, all); MAX_FORBIDDEN],
        ..Draft::default()
    }
}

/// A plant of one variable with these invariants, none of width 0. Nothing moves by itself: it starts on the first of
/// these faces (location, side), and a switch leads from each to the next. So each pass reaches one face more, and if
/// they are all faces, in whatever order, it takes as many passes as its ceiling, two for each location.
pub fn face_by_face(invariants: &[[i32; 2]], faces: &[(usize, usize)]) -> Draft {
    let wall = |&(location, side): &(usize, usize)| vec![invariants[location][side]; 2];
    let switch = |pair: &[(usize, usize)]| SwitchDraft {
        source: pair[0].0,
        target: pair[1].0,
        d: 0,
        source_side: pair[0].1,
        target_side: pair[1].1,
        mask: 1,
        guard: wall(&pair[0]),
        reset: wall(&pair[1]),
    };
    let location =
        |invariant: &[i32; 2]| LocationDraft { invariant: invariant.to_vec(), rates: vec![0; 2], start: None };
    let mut draft = Draft {
        n: 1,
        locations: invariants.iter().map(location).collect(),
        switches: faces.windows(2).map(switch).collect(),
        ..Draft::default()
    };
    draft.locations[faces[0].0].start = Some(wall(&faces[0]));
    draft
}

/// A plant of two variables, x 0..1 and y 0..2, that takes as many passes as its ceiling, 10. Nothing moves by itself,
/// and it starts at x 0, y 1. Each pass adds one face or one level: by a switch, from the level that the pass before
/// added; or, where that is a corner, on the other wall that meets there.
pub fn level_by_level() -> Draft {
    // A switch from a wall of d to one of its walls, from this point to that.
    let switch = |d: usize, from: [i32; 2], to: [i32; 2]| SwitchDraft {
        source: 0,
        target: 0,
        d,
        source_side: (from[d] > 0) as usize,
        target_side: (to[d] > 0) as usize,
        mask: 0b11,
        guard: vec![from[0], from[0], from[1], from[1]],
        reset: vec![to[0], to[0], to[1], to[1]],
    };
    Draft {
        n: 2,
        locations: vec![LocationDraft {
            invariant: vec![0, 1, 0, 2],
            rates: vec![0; 4],
            start: Some(vec![0, 0, 1, 1]),
        }],
        switches: vec![
            switch(0, [0, 1], [1, 1]),
            switch(0, [1, 1], [0, 0]),
            switch(1, [0, 0], [1, 0]),
            switch(0, [1, 0], [0, 2]),
            switch(1, [0, 2], [1, 2]),
        ],
        ..Draft::default()
    }
}

/// A plant that is safe, and worthless: a vat, level 30..100, with a pump of 2 to 5 and no switch. What is forbidden,
/// 101..120, lies outside the invariant and is never met, and no run goes on from 100. With the level up to 120 and
/// 100..120 forbidden it is unknown.
pub fn worthless_wall() -> Draft {
    Draft {
        n: 1,
        locations: vec![LocationDraft { invariant: vec![30, 100], rates: vec![2, 5], start: Some(vec![30, 40]) }],
        forbidden: vec![(0, vec![101, 120])],
        ..Draft::default()
    }
}

/// Another: variable 0 is the level of a vat, 0..80, variable 1 its heat, 20..100, which rises by 1. In location 0 it
/// is filled, by 2 to 5, so that it is full with a heat of 36 to 60; in location 1 it is emptied, by 8, and then filled
/// again with water of heat 20. Forbidden, everywhere, is a heat from 65 up, to which slow fillings come while they are
/// emptied. The switch between takes a heat of 20 up to `most`, and drops the fillings with more: up to 54 it is safe,
/// from 55 on unknown. No switch leads to location 2, where all stands but the heat.
pub fn worthless_guard(most: i32) -> Draft {
    let walls = vec![0, 80, 20, 100];
    let location = |level: [i32; 2], start: Option<Vec<i32>>| LocationDraft {
        invariant: walls.clone(),
        rates: vec![level[0], level[1], 1, 1],
        start,
    };
    let switch = |source: usize, level: i32, mask: u32, guard: [i32; 2], reset: [i32; 2]| SwitchDraft {
        source,
        target: 1 - source,
        d: 0,
        source_side: 1 - source,
        target_side: 1 - source,
        mask,
        guard: vec![level, level, guard[0], guard[1]],
        reset: vec![level, level, reset[0], reset[1]],
    };
    Draft {
        n: 2,
        locations: vec![location([2, 5], Some(vec![0, 0, 20, 20])), location([-8, -8], None), location([0, 0], None)],
        switches: vec![switch(0, 80, 0, [20, most], [20, most]), switch(1, 0, 0b10, [20, 100], [20, 20])],
        forbidden: (0..3).map(|l| (l, vec![0, 80, 65, 100])).collect(),
        ..Draft::default()
    }
}

/// The plant of docs/MODELLING.md: variable 0 is a vat, with its rim at 100, variable 1 the store that feeds it, up to
/// its float at 300, variable 2 a clock that every switch sets to 0. The pump fills the vat in location 0, from empty
/// to 50, and in location 1, from 50 to 80. At 80 it is stopped, and runs out for `lag` in location 2. In location 3
/// the vat is drawn on, down to 50, and the store is filled; in location 4 the store is full. At 50 the pump starts
/// again. Forbidden are the vat from its rim up and the store from 10 down.
pub fn store_and_vat(lag: i32) -> Draft {
    let location = |invariant: [i32; 6], rates: [i32; 6]| LocationDraft {
        invariant: invariant.to_vec(),
        rates: rates.to_vec(),
        start: None,
    };
    let mut locations = vec![
        location([0, 50, 0, 300, 0, 100], [2, 5, -6, -4, 1, 1]),
        location([50, 80, 0, 300, 0, 100], [2, 5, -6, -4, 1, 1]),
        location([80, 120, 0, 300, 0, lag], [1, 5, -6, -3, 1, 1]),
        location([50, 120, 0, 300, 0, 100], [-2, -1, 7, 9, 1, 1]),
        location([50, 120, 300, 300, 0, 0], [-2, -1, 0, 0, 0, 0]),
    ];
    locations[0].start = Some(vec![0, 0, 300, 300, 0, 0]);
    // The invariant of a location with another range of one variable.
    let with = |l: usize, variable: usize, range: [i32; 2]| {
        let mut bounds = locations[l].invariant.clone();
        bounds[2 * variable..2 * variable + 2].copy_from_slice(&range);
        bounds
    };
    // From one wall of d to another, with the clock at 0 afterwards.
    let switch = |source: usize, target: usize, d: usize, source_side: usize, target_side: usize| {
        let guard = with(source, d, [locations[source].invariant[2 * d + source_side]; 2]);
        let reset = [&guard[..4], &[0, 0]].concat();
        SwitchDraft { source, target, d, source_side, target_side, mask: 0b100, guard, reset }
    };
    let between = [switch(0, 1, 0, 1, 0), switch(1, 2, 0, 1, 0), switch(2, 3, 2, 1, 0)];
    let again = [switch(3, 1, 0, 0, 0), switch(3, 4, 1, 1, 1), switch(4, 1, 0, 0, 0)];
    let over = [2, 3, 4].map(|l| (l, with(l, 0, [100, 120])));
    let dry = [0, 1, 2, 3].map(|l| (l, with(l, 1, [0, 10])));
    let (switches, forbidden) = ([between, again].concat(), over.into_iter().chain(dry).collect());
    Draft { n: 3, locations, switches, forbidden, ..Draft::default() }
}
