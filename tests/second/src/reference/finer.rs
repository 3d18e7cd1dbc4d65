//! Further cuts (document 02, T-12): when the second of two models is the first with further cuts, and a table of the
//! first divided into the second's pieces. Nothing here asks what either model is answered.
//!
//! Both have passed their questions.

use crate::reference::model::{Piece, Plant, MAX_BOX};

/// Is the second model the first with further cuts? Up to the cuts the words are the same; a location that the first
/// cuts has the same cut.
pub fn finer(first: &Plant, second: &Plant) -> bool {
    let records = first.sizes.cut_at(0);
    let kept = |l: usize| first.cut(l).is_none() || second.cut(l) == first.cut(l);
    second.words().get(..records) == Some(&first.words()[..records]) && (0..first.sizes.locations).all(kept)
}

/// A table of the first, divided: "Each face of that location with another wall variable is kept as two pieces, up to
/// the value and from the value; other faces have an absent second piece." What the first has in pieces stays so.
/// Words past the first's table are not part of it.
pub fn divided(first: &Plant, second: &Plant, table: &[i32]) -> Vec<i32> {
    let ends = 2 * first.sizes.n;
    let mut pieces = vec![0; second.table_words()];
    for piece in second.all_pieces() {
        let of_first = if first.cut(piece.location).is_some() { piece.piece } else { 0 };
        let held = &table[first.piece_places(Piece { piece: of_first, ..piece })];
        if held[0] == 1 {
            if let Some(bounds) = on_its_side(second, piece, &held[1..]) {
                let words = &mut pieces[second.piece_places(piece)];
                words[0] = 1;
                words[1..].copy_from_slice(&bounds[..ends]);
            }
        }
    }
    pieces
}

/// What of a box lies where a piece may lie; None if nothing does.
fn on_its_side(plant: &Plant, piece: Piece, bounds: &[i32]) -> Option<[i32; MAX_BOX]> {
    let mut side = plant.widest(piece)?;
    for (range, own) in side.chunks_exact_mut(2).zip(bounds.chunks_exact(2)) {
        range.copy_from_slice(&[range[0].max(own[0]), range[1].min(own[1])]);
        if range[0] > range[1] {
            return None;
        }
    }
    Some(side)
}
