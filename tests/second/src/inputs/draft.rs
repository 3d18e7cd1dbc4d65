//! A model in the making, turned into words; and grids of cells with switches between
//! neighbours, as source 000 splits a mode at hyperplanes.

use crate::reference::model::{Edition, Plant, HEAD_WORDS, MAX_SWITCHES};

#[derive(Clone, Debug)]
pub struct LocationDraft {
    pub invariant: Vec<i32>,
    pub rates: Vec<i32>,
    pub start: Option<Vec<i32>>,
}

impl LocationDraft {
    fn of(plant: &Plant, l: usize) -> LocationDraft {
        let location = plant.location(l);
        LocationDraft {
            invariant: location.invariant.to_vec(),
            rates: location.rates.to_vec(),
            start: location.started.then(|| location.start.to_vec()),
        }
    }
}

#[derive(Clone, Debug)]
pub struct SwitchDraft {
    pub source: usize,
    pub target: usize,
    pub d: usize,
    pub source_side: usize,
    pub target_side: usize,
    pub mask: u32,
    pub guard: Vec<i32>,
    pub reset: Vec<i32>,
}

impl SwitchDraft {
    fn of(plant: &Plant, s: usize) -> SwitchDraft {
        let switch = plant.switch(s);
        SwitchDraft {
            source: switch.source,
            target: switch.target,
            d: switch.d,
            source_side: switch.source_side,
            target_side: switch.target_side,
            mask: switch.mask,
            guard: switch.guard.to_vec(),
            reset: switch.reset.to_vec(),
        }
    }
}

#[derive(Clone, Debug, Default)]
pub struct Draft {
    pub n: usize,
    pub edition: Edition,
    pub locations: Vec<LocationDraft>,
    pub switches: Vec<SwitchDraft>,
    /// Location and box.
    pub forbidden: Vec<(usize, Vec<i32>)>,
    /// Location, variable and value; at most one for each location.
    pub cuts: Vec<(usize, usize, i32)>,
}

impl Draft {
    /// The draft of a plant: its words are the plant's.
    pub fn of(plant: &Plant) -> Draft {
        let locations = (0..plant.sizes.locations).map(|l| LocationDraft::of(plant, l));
        let switches = (0..plant.sizes.switches).map(|s| SwitchDraft::of(plant, s));
        let forbidden = (0..plant.sizes.forbidden).map(|f| plant.forbidden(f));
        let cuts = (0..plant.sizes.locations).filter_map(|l| plant.cut(l).map(|cut| (l, cut.variable, cut.value)));
        Draft {
            n: plant.sizes.n,
            edition: plant.edition,
            locations: locations.collect(),
            switches: switches.collect(),
            forbidden: forbidden.map(|forbidden| (forbidden.location, forbidden.bounds.to_vec())).collect(),
            cuts: cuts.collect(),
        }
    }

    /// The model's words.
    pub fn words(&self) -> Vec<i32> {
        let counts = [self.n, self.locations.len(), self.switches.len(), self.forbidden.len()];
        let mut words = counts.map(|count| count as i32).to_vec();
        words.push(self.edition.word());
        assert_eq!(words.len(), HEAD_WORDS);
        for location in &self.locations {
            words.extend(&location.invariant);
            words.extend(&location.rates);
            match &location.start {
                Some(start) => {
                    words.push(1);
                    words.extend(start);
                }
                None => words.extend(vec![0; 1 + 2 * self.n]),
            }
        }
        for s in &self.switches {
            for word in [s.source, s.target, s.d, s.source_side, s.target_side, s.mask as usize] {
                words.push(word as i32);
            }
            words.extend(&s.guard);
            words.extend(&s.reset);
        }
        for (location, bounds) in &self.forbidden {
            words.push(*location as i32);
            words.extend(bounds);
        }
        let first = words.len();
        words.extend([-1, 0].repeat(self.locations.len()));
        for &(location, variable, value) in &self.cuts {
            words[first + 2 * location] = variable as i32;
            words[first + 2 * location + 1] = value;
        }
        words
    }
}

/// A grid of cells. `walls[i]` are the rising values that variable i's cells end at, so that it
/// has one cell fewer than walls. Variable 0 runs fastest in the numbers of the locations.
/// A switch leads across each inner wall in every direction in which the rates can move;
/// it needs its wall, resets nothing, and arrives anywhere in the target. No more than the
/// allowed number of switches are made. No start, no forbidden box and no cut.
pub fn grid(walls: &[Vec<i32>], mut rates: impl FnMut(&[i32]) -> Vec<i32>) -> Draft {
    let n = walls.len();
    let counts: Vec<usize> = walls.iter().map(|values| values.len() - 1).collect();
    let cells: usize = counts.iter().product();
    let mut draft = Draft { n, ..Draft::default() };
    for cell in 0..cells {
        let mut rest = cell;
        let mut invariant = Vec::new();
        for i in 0..n {
            let at = rest % counts[i];
            rest /= counts[i];
            invariant.push(walls[i][at]);
            invariant.push(walls[i][at + 1]);
        }
        let rates = rates(&invariant);
        draft.locations.push(LocationDraft { invariant, rates, start: None });
    }
    let mut stride = 1;
    for d in 0..n {
        for low in 0..cells {
            if low / stride % counts[d] + 1 == counts[d] {
                continue;
            }
            let high = low + stride;
            if draft.locations[low].rates[2 * d + 1] > 0 {
                cross(&mut draft, low, high, d, 1);
            }
            if draft.locations[high].rates[2 * d] < 0 {
                cross(&mut draft, high, low, d, 0);
            }
        }
        stride *= counts[d];
    }
    draft
}

/// Adds the switch from `source` over its wall (d, side) into its neighbour.
fn cross(draft: &mut Draft, source: usize, target: usize, d: usize, side: usize) {
    if draft.switches.len() == MAX_SWITCHES {
        return;
    }
    let mut guard = draft.locations[source].invariant.clone();
    let wall = guard[2 * d + side];
    guard[2 * d] = wall;
    guard[2 * d + 1] = wall;
    draft.switches.push(SwitchDraft {
        source,
        target,
        d,
        source_side: side,
        target_side: 1 - side,
        mask: 0,
        guard,
        reset: draft.locations[target].invariant.clone(),
    });
}
