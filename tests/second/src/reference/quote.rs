//! The quote of an order (document 02, T-07): what an analysis of the model takes at most, from the model alone.

use crate::reference::ceiling;
use crate::reference::model::{Location, Plant};
use crate::reference::Refusal;

/// The table's words, the bytes of its longest file as question 39 counts them, and the ceiling.
#[derive(Clone, Copy, Debug, Default, PartialEq, Eq)]
pub struct Quote {
    pub words: u64,
    pub bytes: u64,
    pub ceiling: u64,
}

/// What an analysis took: the passes made, the words of its table, the bytes of its table's file.
#[derive(Clone, Copy, Debug)]
pub struct Taken {
    pub passes: u64,
    pub words: u64,
    pub bytes: u64,
}

/// The quote of a model. Its ceiling is the sum over all pieces that may be present.
pub fn quote(model: &[i32]) -> Result<Quote, Refusal> {
    Ok(of_plant(&Plant::from_words(model)?))
}

pub fn of_plant(plant: &Plant) -> Quote {
    Quote {
        words: plant.table_words() as u64,
        bytes: plant.table_file_room() as u64,
        ceiling: ceiling::of_plant(plant),
    }
}

impl Quote {
    /// Of its three values, in this order.
    pub fn of([words, bytes, ceiling]: [u64; 3]) -> Quote {
        Quote { words, bytes, ceiling }
    }

    pub fn values(&self) -> [u64; 3] {
        [self.words, self.bytes, self.ceiling]
    }

    /// Does an analysis that took this keep to the quote? Its table has exactly the words.
    pub fn holds(&self, taken: &Taken) -> bool {
        taken.passes <= self.ceiling && taken.words == self.words && taken.bytes <= self.bytes
    }
}

/// A location's share of the ceiling by its widths alone, to be held to the sum over its pieces. Where no cut is it is
/// T-07's 2n + 2(n - 1) × the sum of all widths.
///
/// A cut adds 2(n - 1) + 2(n - 2) × the sum of the other variables' widths: a second piece on each of the 2(n - 1)
/// walls of the others, each with 1 and all widths but the wall's and the cut variable's, whose width the two pieces
/// share. So each of the other widths is added on 2(n - 2) walls, and where the value lies makes no difference.
pub fn by_widths(location: &Location) -> u64 {
    let widths: Vec<i64> = location.invariant.chunks_exact(2).map(|range| range[1] as i64 - range[0] as i64).collect();
    let (n, all) = (widths.len() as i64, widths.iter().sum::<i64>());
    let whole = 2 * n + 2 * (n - 1) * all;
    let by_the_cut = location.cut.map_or(0, |cut| 2 * (n - 1) + 2 * (n - 2) * (all - widths[cut.variable]));
    (whole + by_the_cut) as u64
}
