//! The plants that are timed. All are grids of cells as source 000 makes them, with forbidden
//! boxes inside the invariants that no part of the table at rest touches, so that the search
//! for a touch goes through all of them after every pass. It is the table at rest of before
//! request T-06, in which today's lies: a library of before answers safe too.

use second::inputs::draft::{grid, Draft, SwitchDraft};
use second::inputs::generate::close_by;
use second::inputs::random::Random;
use second::reference::before;
use second::reference::delays::touches;
use second::reference::files::model_file;
use second::reference::model::{Edition, Plant};

const CELL_WIDTH: i32 = 20;
const STROKES: i32 = 256;
const STROKE: i32 = 4;
const FEWEST_BOXES: usize = 8;

pub struct Timed {
    pub name: String,
    pub model: Vec<u8>,
    pub variables: usize,
    pub locations: usize,
    pub switches: usize,
    pub forbidden: usize,
}

impl Timed {
    pub fn new(name: &str, draft: &Draft) -> Timed {
        Timed {
            name: name.to_string(),
            model: model_file(&draft.words()),
            variables: draft.n,
            locations: draft.locations.len(),
            switches: draft.switches.len(),
            forbidden: draft.forbidden.len(),
        }
    }
}

/// Cells for each variable, so that there are `locations` of them.
fn cells(n: usize, locations: usize) -> Vec<usize> {
    let mut cells = vec![1; n];
    let mut left = locations;
    let mut i = 0;
    while left > 1 {
        cells[i % n] *= 2;
        left /= 2;
        i += 1;
    }
    cells
}

/// No cuts and no reset ranges. The plants take this, or `second::inputs::examples::all_cut`, or `ranged`, before their
/// forbidden boxes are laid.
pub fn whole(draft: Draft) -> Draft {
    draft
}

/// Edition 2: what a switch set to 0, but for the variable of its wall, it sets to 0 to 1.
pub fn ranged(mut draft: Draft) -> Draft {
    draft.edition = Edition::Two;
    for switch in &mut draft.switches {
        for i in (0..draft.n).filter(|&i| i != switch.d && switch.mask >> i & 1 == 1) {
            switch.reset[2 * i + 1] = 1;
        }
    }
    draft
}

/// A grid through which the levels spread upwards, with some cells that turn them back. Few
/// passes: about two for each cell on the longest way.
pub fn spreading(n: usize, locations: usize, changed: fn(Draft) -> Draft) -> Draft {
    let walls: Vec<Vec<i32>> =
        cells(n, locations).iter().map(|&count| (0..=count as i32).map(|i| i * CELL_WIDTH).collect()).collect();
    let mut random = Random::new(3);
    let mut draft = grid(&walls, |_| {
        (0..n)
            .flat_map(|_| {
                let slow = random.pick(&[1, 1, 1, 2, 2, 2, 3, -1]);
                [slow, slow + random.pick(&[0, 1, 1])]
            })
            .collect()
    });
    draft.locations[0].start = Some([0, 1].repeat(n));
    with_forbidden(changed(draft))
}

/// A row of cells along the last variable, which creeps up by `STROKE` while the others run
/// through their range and are then set back. Many passes: two for each stroke.
pub fn creeping(n: usize, locations: usize, changed: fn(Draft) -> Draft) -> Draft {
    let height = STROKES * STROKE / locations as i32;
    let mut walls = vec![vec![0, STROKE]; n];
    walls[n - 1] = (0..=locations as i32).map(|i| i * height).collect();
    let mut draft = grid(&walls, |_| vec![1; 2 * n]);
    for l in 0..locations {
        set_back(&mut draft, l);
    }
    let mut start = vec![0; 2 * n];
    start[2 * n - 2..].fill(2 * STROKE);
    draft.locations[0].start = Some(start);
    with_forbidden(changed(draft))
}

/// Adds a switch that sets all variables but the last back from variable 0's high wall.
fn set_back(draft: &mut Draft, l: usize) {
    let n = draft.n;
    let (mut guard, mut reset) = (draft.locations[l].invariant.clone(), draft.locations[l].invariant.clone());
    guard[0] = STROKE;
    reset[..2 * n - 2].fill(0);
    draft.switches.push(SwitchDraft {
        source: l,
        target: l,
        d: 0,
        source_side: 1,
        target_side: 0,
        mask: (1 << (n - 1)) - 1,
        guard,
        reset,
    });
}

/// Adds forbidden boxes inside the invariants that the table at rest does not touch: as many
/// as there are locations, at least `FEWEST_BOXES`, spread over the locations as far as such
/// boxes are found.
fn with_forbidden(mut draft: Draft) -> Draft {
    let words = draft.words();
    let plant = Plant::from_words(&words).expect("a timed plant passes its questions");
    let mut table = vec![0; plant.table_words()];
    assert!(close_by(&plant, &mut table, 1_000_000, before::pass));
    let mut random = Random::new(7);
    let count = plant.sizes.locations.max(FEWEST_BOXES);
    for l in (0..plant.sizes.locations).cycle().take(count * plant.sizes.locations) {
        if draft.forbidden.len() < count {
            draft.forbidden.extend(untouched_box(&mut random, &plant, &table, l).map(|bounds| (l, bounds)));
        }
    }
    draft
}

/// A box inside the location's invariant that no part touches, if one is found soon.
fn untouched_box(random: &mut Random, plant: &Plant, table: &[i32], l: usize) -> Option<Vec<i32>> {
    let location = plant.location(l);
    let n = plant.sizes.n;
    let pieces = table[plant.location_places(l)].chunks_exact(plant.sizes.face_words());
    let start = location.start_part();
    let present = pieces.filter(|piece| piece[0] == 1).map(|piece| &piece[1..]);
    let parts: Vec<&[i32]> = start.iter().map(|part| &part[..]).chain(present).collect();
    if parts.is_empty() {
        return None;
    }
    (0..100).find_map(|_| {
        let bounds: Vec<i32> = location
            .invariant
            .chunks_exact(2)
            .flat_map(|r| {
                // Near the low end as often as anywhere.
                let far = if random.chance(1, 2) { r[1] } else { r[1].min(r[0] + STROKE) };
                let low = random.range(r[0] as i64, far as i64) as i32;
                [low, r[1].min(low + random.pick(&[0, 1, 3]))]
            })
            .collect();
        let touched = parts.iter().any(|part| touches(n, part, location.rates, location.invariant, &bounds));
        (!touched).then_some(bounds)
    })
}
