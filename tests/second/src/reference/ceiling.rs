//! The ceiling: over all pieces that may be present, 1 plus their widths of the variables other than d.

use crate::reference::model::{Piece, Plant};
use crate::reference::Refusal;

pub fn ceiling(model: &[i32]) -> Result<u64, Refusal> {
    Ok(of_plant(&Plant::from_words(model)?))
}

pub fn of_plant(plant: &Plant) -> u64 {
    (0..plant.sizes.locations).map(|location| of_location(plant, location)).sum()
}

/// What the pieces of a location add.
pub fn of_location(plant: &Plant, location: usize) -> u64 {
    let mut sum = 0u64;
    for face in 0..plant.sizes.faces() {
        for piece in 0..plant.pieces_of(location) {
            sum += share(plant, Piece { location, face, piece });
        }
    }
    sum
}

/// What a piece adds: nothing if it is always absent.
fn share(plant: &Plant, piece: Piece) -> u64 {
    let Some(widest) = plant.widest(piece) else {
        return 0;
    };
    let others = (0..plant.sizes.n).filter(|&i| i != piece.face / 2);
    1 + others.map(|i| (widest[2 * i + 1] as i64 - widest[2 * i] as i64) as u64).sum::<u64>()
}
