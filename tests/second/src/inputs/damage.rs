//! Damaged inputs: tables, model words and files with one change each, aimed at the edge of a question.

use crate::inputs::generate::{put_random_piece, random_range};
use crate::inputs::random::Random;
use crate::inputs::ranges::{lows_alone, with_ranges};
use crate::reference::files::{
    field, file_of_words, head_tag, model_file, CUT, FACE, FORBIDDEN, HEAD, HEAD_2, HEAD_FIELD_BYTES, HEAD_FIELD_WORDS,
    LOCATION, SWITCH, TABLE_HEAD,
};
use crate::reference::model::{Edition, Location, Piece, Plant, Switch, EDITION_AT, LEVEL, RATE, SWITCH_HEAD};
use crate::reference::Refusal;

// ---------------------------------------------------------------- damage to tables

/// The kinds of change that `damage_table` makes.
pub const TABLE_DAMAGE: [&str; 18] = [
    "a face wider below",
    "a face wider above",
    "a face narrower below",
    "a face narrower above",
    "a face off its wall at one end",
    "a face off its wall at both ends",
    "a face taken away",
    "another face",
    "a face as wide as it may be",
    "low and high exchanged",
    "any word in a face",
    "a piece on the other side of the value",
    "a piece as wide as its wall",
    "the value in one piece alone",
    "first and second piece exchanged",
    "a second piece where none may be",
    "a flag that is neither 0 nor 1",
    "an absent face that is not zero",
];

/// Those of them that a table file can say: it has no flags and no absent faces.
pub const FACES_DAMAGE: &[&str] = TABLE_DAMAGE.split_at(16).0;

/// Those that any table can have, and that need a face in two pieces.
const ANY_FACE: usize = 11;
const TWO_PIECES: std::ops::Range<usize> = 11..15;

/// One change to the words of a table; gives its kind.
pub fn damage_table(random: &mut Random, plant: &Plant, table: &mut [i32]) -> &'static str {
    let kind = random.below(TABLE_DAMAGE.len());
    change_table(random, plant, table, kind)
}

/// One change to the faces of a table that a table file can say; gives its kind.
pub fn damage_faces(random: &mut Random, plant: &Plant, table: &mut [i32]) -> &'static str {
    let kind = random.below(FACES_DAMAGE.len());
    change_table(random, plant, table, kind)
}

/// A piece to be changed, and the kind of change: another kind where the plant has no piece for this one.
fn piece_to_change(random: &mut Random, plant: &Plant, table: &[i32], kind: usize) -> (Piece, usize) {
    let present = |piece: &Piece| table[plant.piece_places(*piece).start] == 1;
    let any = |random: &mut Random| {
        let location = random.below(plant.sizes.locations);
        let (face, piece) = (random.below(plant.sizes.faces()), random.below(plant.pieces_of(location)));
        Piece { location, face, piece }
    };
    let mut piece = any(random);
    if !(ANY_FACE..FACES_DAMAGE.len()).contains(&kind) {
        // A present piece where one is found quickly.
        for _ in 0..4 {
            if present(&piece) {
                break;
            }
            piece = any(random);
        }
        return (piece, kind);
    }
    // One of a location that is cut: on a wall of another variable, or on one of the cut variable.
    let fits = |piece: &Piece| {
        let own = plant.cut(piece.location).map(|cut| cut.variable == piece.face / 2);
        own == Some(!TWO_PIECES.contains(&kind))
    };
    let fitting: Vec<Piece> = plant.all_pieces().filter(fits).collect();
    if fitting.is_empty() {
        return (piece, random.below(ANY_FACE));
    }
    let standing: Vec<Piece> = fitting.iter().copied().filter(present).collect();
    (random.pick(if standing.is_empty() { &fitting } else { &standing }), kind)
}

fn change_table(random: &mut Random, plant: &Plant, table: &mut [i32], kind: usize) -> &'static str {
    let n = plant.sizes.n;
    let (piece, kind) = piece_to_change(random, plant, table, kind);
    if (ANY_FACE..FACES_DAMAGE.len()).contains(&kind) {
        change_pieces(random, plant, table, piece, kind);
        return TABLE_DAMAGE[kind];
    }
    let i = random.below(n);
    let face = piece.face;
    let (low, high, wall) = (1 + 2 * i, 2 + 2 * i, 1 + 2 * (face / 2));
    let words = &mut table[plant.piece_places(piece)];
    let by = random.pick(&[1, 1, 1, 2, 5]);
    match kind {
        0 => words[low] = words[low].wrapping_sub(by),
        1 => words[high] = words[high].wrapping_add(by),
        2 => words[low] = words[low].wrapping_add(by),
        3 => words[high] = words[high].wrapping_sub(by),
        4 => words[1 + face] = words[1 + face].wrapping_add(by),
        5 => words[wall..wall + 2].iter_mut().for_each(|end| *end = end.wrapping_add(by)),
        6 => words.fill(0),
        7 => put_random_piece(random, plant, table, piece),
        8 => {
            if let Some(widest) = plant.widest(piece) {
                words[0] = 1;
                words[1..].copy_from_slice(&widest[..2 * n]);
            }
        }
        9 => words[low..=high].reverse(),
        10 => words[1 + random.below(2 * n)] = random_word(random),
        16 => words[0] = random.pick(&[2, -1, i32::MAX, i32::MIN]),
        _ => words[0] = 0,
    }
    TABLE_DAMAGE[kind]
}

/// One change to a piece of a location that is cut. The piece is made present first.
fn change_pieces(random: &mut Random, plant: &Plant, table: &mut [i32], piece: Piece, kind: usize) {
    let words_of_one = plant.sizes.face_words();
    let cut = plant.cut(piece.location).expect("such a change is made to a location that is cut");
    let range = 1 + 2 * cut.variable..3 + 2 * cut.variable;
    let invariant = &plant.location(piece.location).invariant[2 * cut.variable..][..2];
    if table[plant.piece_places(piece).start] == 0 {
        put_random_piece(random, plant, table, piece);
    }
    let (first, second) = table[plant.face_places(piece.location, piece.face)].split_at_mut(words_of_one);
    let words = if piece.piece == 0 { &mut *first } else { &mut *second };
    match kind {
        11 => {
            let other = if piece.piece == 0 { [cut.value, invariant[1]] } else { [invariant[0], cut.value] };
            words[range].copy_from_slice(&random_range(random, other[0], other[1]));
        }
        12 => words[range].copy_from_slice(invariant),
        13 if piece.piece == 0 => words[range.end - 1] = cut.value - 1,
        13 => words[range.start] = cut.value + 1,
        14 => first.swap_with_slice(second),
        _ => second.copy_from_slice(first),
    }
}

// ---------------------------------------------------------------- damage to models

/// A word at the edge of some question.
pub fn random_word(random: &mut Random) -> i32 {
    match random.below(3) {
        0 => random.range(-3, 12) as i32,
        1 => random.pick(&[
            63,
            64,
            65,
            127,
            128,
            129,
            RATE,
            -RATE,
            RATE + 1,
            -RATE - 1,
            LEVEL,
            -LEVEL,
            LEVEL + 1,
            -LEVEL - 1,
            i32::MAX,
            i32::MIN,
        ]),
        _ => random.next() as i32,
    }
}

/// Edition words, most of them of no edition.
const EDITION_WORDS: [i32; 10] = [0, 3, -1, -2, 9, 257, i32::MAX, i32::MIN, 1, 2];

/// One change aimed at one of the questions 2 to 4, 43, 11 to 19 and 46, as places and new words.
/// Not every change leads to a refusal.
pub fn model_edit(random: &mut Random, plant: &Plant) -> Vec<(usize, i32)> {
    let sizes = plant.sizes;
    let n = sizes.n;
    let words = plant.words();
    let i = random.below(n);
    let kinds: &[usize] = match (sizes.switches > 0, sizes.forbidden > 0) {
        (true, true) => &[0, 1, 1, 2, 2, 3, 4, 5],
        (true, false) => &[0, 1, 1, 2, 2, 2, 4, 5],
        (false, true) => &[0, 1, 1, 3, 4, 5],
        (false, false) => &[0, 1, 1, 4, 5],
    };
    match random.pick(kinds) {
        0 => match random.below(5) {
            0 => vec![(0, random.pick(&[0, 7, -1, 6, 1, i32::MAX, i32::MIN]))],
            1 => vec![(1, random.pick(&[0, 65, -1, 64, 1, i32::MAX, i32::MIN]))],
            2 => vec![(2, random.pick(&[129, -1, 128, 0, i32::MAX, i32::MIN]))],
            3 => vec![(EDITION_AT, random.pick(&EDITION_WORDS))],
            _ => vec![(3, random.pick(&[65, -1, 64, 0, i32::MAX, i32::MIN]))],
        },
        1 => vec![location_edit(random, plant, i)],
        2 => {
            let s = random.below(sizes.switches);
            let at = sizes.switch_at(s);
            let switch = plant.switch(s);
            let guard = at + SWITCH_HEAD + 2 * i;
            let reset = sizes.reset_at(s, i);
            let l = sizes.locations as i32;
            match random.below(13) {
                0 => vec![(at + random.below(2), random.pick(&[l, -1, l - 1, 0, i32::MAX]))],
                1 => vec![(at + 2, random.pick(&[n as i32, -1, 0, i32::MIN]))],
                2 => vec![(at + 3 + random.below(2), random.pick(&[2, -1, 0, 1]))],
                3 => vec![(at + 5, random.pick(&[1 << n, -1, (1 << n) - 1, 0, i32::MIN]))],
                4 => vec![(guard, words[guard + 1].saturating_add(1))],
                5 => vec![(reset, words[reset + 1].saturating_add(1))],
                6 => {
                    let place = random.pick(&[guard, guard + 1, reset, reset + 1]);
                    vec![(place, out(random, LEVEL))]
                }
                7 | 8 => {
                    // Masked, and one end of the reset range moved.
                    let mask = words[at + 5] | 1 << i;
                    vec![(at + 5, mask), (reset + 1, words[reset].saturating_add(random.pick(&[0, 1])))]
                }
                9 => {
                    // The guard of d off its wall, at one end or both.
                    let place = at + SWITCH_HEAD + 2 * switch.d;
                    match random.below(3) {
                        0 => vec![(place, words[place] - 1)],
                        1 => vec![(place + 1, words[place + 1] + 1)],
                        _ => vec![(place, words[place] + 1), (place + 1, words[place + 1] + 1)],
                    }
                }
                10 => {
                    // d reset beside the target's wall.
                    let place = sizes.reset_at(s, switch.d);
                    let wall = words[place].clamp(-LEVEL + 1, LEVEL - 1) + random.pick(&[1, -1]);
                    vec![(at + 5, words[at + 5] | 1 << switch.d), (place, wall), (place + 1, wall)]
                }
                11 => vec![(at + 4, 1 - words[at + 4])],
                _ => vec![(at + 5, words[at + 5] ^ 1 << switch.d)],
            }
        }
        3 => {
            let at = sizes.forbidden_at(random.below(sizes.forbidden));
            let bound = at + 1 + 2 * i;
            match random.below(3) {
                0 => vec![(at, random.pick(&[sizes.locations as i32, -1, 0, i32::MAX]))],
                1 => vec![(bound, words[bound + 1].saturating_add(1))],
                _ => vec![(bound + random.below(2), out(random, LEVEL))],
            }
        }
        4 => vec![(random.below(words.len()), random_word(random))],
        _ => {
            let l = random.below(sizes.locations);
            let (low, high) = (plant.location(l).invariant[2 * i], plant.location(l).invariant[2 * i + 1]);
            let cut = match random.below(10) {
                0 => [-1, random.pick(&[1, -1, low, high])],
                1 => [-2, random.pick(&[0, low])],
                2 => [n as i32, random.pick(&[0, low + 1])],
                3 => [i as i32, low],
                4 => [i as i32, high],
                5 => [i as i32, random.pick(&[low - 1, high + 1, i32::MAX, i32::MIN])],
                6 => [i as i32, low + 1],
                7 => [i as i32, high - 1],
                8 => [random_word(random), random.pick(&[low + 1, high - 1])],
                _ => [-1, 0],
            };
            vec![(sizes.cut_at(l), cut[0]), (sizes.cut_at(l) + 1, cut[1])]
        }
    }
}

/// A word at the edge of a range, or past it.
fn out(random: &mut Random, edge: i32) -> i32 {
    let sign = random.pick(&[1, -1]);
    sign * (edge + random.pick(&[0, 1, 1, 1, 1000]))
}

/// One change to variable i of a location, or to its start flag. Two of them let a start box stick out of
/// the invariant, which is not refused.
fn location_edit(random: &mut Random, plant: &Plant, i: usize) -> (usize, i32) {
    let (sizes, words) = (plant.sizes, plant.words());
    let at = sizes.location_at(random.below(sizes.locations));
    let (inv, rate) = (at + 2 * i, at + 2 * sizes.n + 2 * i);
    let flag = at + 4 * sizes.n;
    let start = flag + 1 + 2 * i;
    match random.below(10) {
        0 => (inv, words[inv + 1].saturating_add(1)),
        1 => (inv + random.below(2), out(random, LEVEL)),
        2 => (rate, words[rate + 1].saturating_add(1)),
        3 => (rate + random.below(2), out(random, RATE)),
        4 => (flag, random.pick(&[2, -1, 1, 0, i32::MIN])),
        5 => (start, words[inv].saturating_sub(1)),
        6 => (start + 1, words[inv + 1].saturating_add(1)),
        7 => (start, words[start + 1].saturating_add(1)),
        _ => (start + random.below(2), out(random, LEVEL)),
    }
}

/// The model's words with one or two changes of `model_edit`.
pub fn edited_words(random: &mut Random, plant: &Plant) -> Vec<i32> {
    let mut words = plant.words().to_vec();
    let edits = if random.chance(1, 5) { 2 } else { 1 };
    for _ in 0..edits {
        for (index, word) in model_edit(random, plant) {
            words[index] = word;
        }
    }
    words
}

/// The model file with such changes; its fields stay those of the model, but for those of the cuts.
pub fn edited_model_file(random: &mut Random, plant: &Plant) -> Vec<u8> {
    file_of_words(&plant.sizes, &edited_words(random, plant))
}

/// The kinds of change to a start box that `damaged_starts` makes, with the number that the model then gets:
/// none if it still passes its questions (document 02, T-02).
pub const START_DAMAGE: [(&str, Option<Refusal>); 14] = [
    ("a start box out of order", Some(13)),
    ("a start box behind the wall, out of order", Some(13)),
    ("a start box from below -1,000,000", Some(13)),
    ("a start box to above 1,000,000", Some(13)),
    ("a start flag that is neither 0 nor 1", Some(13)),
    ("flag 0 and a start box that is not zeros", Some(13)),
    ("a bad start box, and a bad invariant in the next location", Some(13)),
    ("a bad start box, and a bad invariant", Some(11)),
    ("a bad start box, and bad rates", Some(12)),
    ("a start box that sticks out by one", None),
    ("a start box that only meets the wall", None),
    ("a start box behind the wall", None),
    ("a start box of all levels", None),
    ("flag 1 and a start box of zeros", None),
];

/// The model's words with one change to a start box; one is put in where there is none. Gives its place in
/// `START_DAMAGE` too.
pub fn damaged_starts(random: &mut Random, plant: &Plant) -> (Vec<i32>, usize) {
    let sizes = plant.sizes;
    let l = random.below(sizes.locations);
    let mut kind = random.below(START_DAMAGE.len());
    if kind == 6 && l + 1 == sizes.locations {
        kind = 0;
    }
    let mut words = plant.words().to_vec();
    let (flag, start) = changed_start(random, &plant.location(l), kind);
    let (invariant, rates) = (sizes.location_at(l), sizes.location_at(l) + 2 * sizes.n);
    words[rates + 2 * sizes.n] = flag;
    words[rates + 2 * sizes.n + 1..sizes.location_at(l + 1)].copy_from_slice(&start);
    match kind {
        6 => words[sizes.location_at(l + 1)] = LEVEL + 1,
        7 => words[invariant] = LEVEL + 1,
        8 => words[rates] = RATE + 1,
        _ => {}
    }
    (words, kind)
}

/// Start flag and start box of a location after that kind of change, in one of its variables or in all.
fn changed_start(random: &mut Random, location: &Location, kind: usize) -> (i32, Vec<i32>) {
    let mut start = if location.started { location.start } else { location.invariant }.to_vec();
    let i = random.below(start.len() / 2);
    let face = 2 * i + random.below(2);
    let (wall, outward) = (location.invariant[face], [-1, 1][face % 2]);
    let behind = (wall + outward * random.pick(&[1, 1, 2, 5])).clamp(-LEVEL, LEVEL);
    let mut flag = 1;
    match kind {
        0 | 6..=8 => start[2 * i] = start[2 * i + 1] + 1,
        1 => start[2 * i..2 * i + 2].copy_from_slice(&[behind + 1, behind]),
        2 => start[2 * i] = random.pick(&[-LEVEL - 1, -LEVEL - 1, -LEVEL - 1_000, i32::MIN]),
        3 => start[2 * i + 1] = random.pick(&[LEVEL + 1, LEVEL + 1, LEVEL + 1_000, i32::MAX]),
        4 => flag = random.pick(&[2, -1, i32::MIN, i32::MAX]),
        5 => {
            flag = 0;
            start.fill(0);
            start[face] = random.pick(&[1, -1, LEVEL, i32::MIN]);
        }
        9 => {
            start[2 * i..2 * i + 2].copy_from_slice(&location.invariant[2 * i..2 * i + 2]);
            start[face] = (wall + outward).clamp(-LEVEL, LEVEL);
        }
        10 => start[2 * i..2 * i + 2].copy_from_slice(&[wall.min(behind), wall.max(behind)]),
        11 => start[2 * i..2 * i + 2].fill(behind),
        12 => start.chunks_exact_mut(2).for_each(|range| range.copy_from_slice(&[-LEVEL, LEVEL])),
        _ => start.fill(0),
    }
    (flag, start)
}

/// The kinds of change to the edition and to reset ranges that `damaged_ranges` makes, with the numbers that the
/// model then gets, as words and as a file: none if it still passes its questions (document 02, T-10). In a file no
/// tag stands for an edition word that is neither 1 nor 2.
pub const RANGE_DAMAGE: [(&str, Option<Refusal>, Option<Refusal>); 22] = [
    ("a bad edition", Some(43), Some(1)),
    ("a bad edition and a bad n", Some(2), Some(1)),
    ("a bad edition and a bad L", Some(3), Some(1)),
    ("a bad edition and a bad E or B", Some(4), Some(1)),
    ("a bad edition and a bad invariant", Some(43), Some(1)),
    ("a bad edition and a bad cut", Some(43), Some(1)),
    ("edition 1 and single values alone", None, None),
    ("edition 2 and single values alone", None, None),
    ("edition 2 and a bad n", Some(2), Some(2)),
    ("edition 1 and a range", Some(16), Some(16)),
    ("edition 2 and a range", None, None),
    ("edition 2 and a range of all levels", None, None),
    ("edition 1 and a range of a masked d", Some(16), Some(16)),
    ("edition 2 and a range of a masked d", Some(16), Some(16)),
    ("edition 1 and a range of an unmasked d", None, None),
    ("edition 2 and a range of an unmasked d", None, None),
    ("edition 2 and a range out of order", Some(15), Some(15)),
    ("edition 2 and a range to above 1,000,000", Some(15), Some(15)),
    ("edition 2, a range of a masked d and a guard off its wall", Some(16), Some(16)),
    ("edition 1, a range and a guard off its wall", Some(16), Some(16)),
    ("edition 2, a range and a guard off its wall", Some(17), Some(17)),
    ("edition 2, a range and d set beside its wall", Some(18), Some(18)),
];

/// Those of them that need no switch.
const OF_THE_HEAD: usize = 9;

/// The model's words with one change to the edition or to a reset range. Gives its place in `RANGE_DAMAGE` too.
pub fn damaged_ranges(random: &mut Random, plant: &Plant) -> (Vec<i32>, usize) {
    let sizes = plant.sizes;
    let mut kind = random.below(RANGE_DAMAGE.len());
    let mut switches: Vec<usize> = (0..sizes.switches).collect();
    if matches!(kind, 14 | 15) {
        switches.retain(|&s| !plant.switch(s).masked(plant.switch(s).d));
    }
    // A range needs a variable beside d.
    let of_d = matches!(kind, 12..=15 | 18);
    if switches.is_empty() || (sizes.n == 1 && !of_d) {
        kind = random.below(OF_THE_HEAD);
    }
    let edition = match kind {
        6 | 9 | 12 | 14 | 19 => Edition::One,
        _ => Edition::Two,
    };
    // No other range than the one that is put in.
    let mut words = with_ranges(plant, lows_alone);
    words[EDITION_AT] = edition.word();
    if kind < OF_THE_HEAD {
        change_head(random, plant, &mut words, kind);
    } else {
        let s = random.pick(&switches);
        change_reset(random, plant, &mut words, s, kind);
    }
    (words, kind)
}

/// One change to the head, with one to a record in some kinds.
fn change_head(random: &mut Random, plant: &Plant, words: &mut [i32], kind: usize) {
    if kind < 6 {
        words[EDITION_AT] = random.pick(&EDITION_WORDS[..8]);
    }
    match kind {
        1 | 8 => words[0] = random.pick(&[0, 7, -1]),
        2 => words[1] = random.pick(&[0, 65, -1]),
        3 => words[random.pick(&[2, 3])] = random.pick(&[129, -1]),
        4 => words[plant.sizes.location_at(0)] = LEVEL + 1,
        5 => words[plant.sizes.cut_at(0)] = -2,
        _ => {}
    }
}

/// One change to the reset box of a switch, with one to its guard or to the reset value of d in some kinds.
fn change_reset(random: &mut Random, plant: &Plant, words: &mut [i32], s: usize, kind: usize) {
    let (sizes, switch) = (plant.sizes, plant.switch(s));
    let d = switch.d;
    let beside: Vec<usize> = (0..sizes.n).filter(|&i| i != d).collect();
    let of_d = matches!(kind, 12..=15 | 18);
    let i = if of_d { d } else { random.pick(&beside) };
    let mask = sizes.switch_at(s) + SWITCH_HEAD - 1;
    let (guard, reset) = (sizes.switch_at(s) + SWITCH_HEAD + 2 * d, sizes.reset_at(s, i));
    let low = words[reset].clamp(-LEVEL, LEVEL - 1);
    let high = (low + random.pick(&[1, 1, 2, 5, 2 * LEVEL])).min(LEVEL);
    words[reset..reset + 2].copy_from_slice(&match kind {
        11 => [-LEVEL, LEVEL],
        16 => [low + 1, low],
        17 => [low, LEVEL + 1],
        _ => [low, high],
    });
    if !matches!(kind, 14 | 15) {
        words[mask] |= 1 << i;
    }
    match kind {
        18..=20 => {
            let off = beside_wall(words[guard]);
            words[guard..guard + 2].fill(off);
        }
        21 => {
            let wall = target_wall(plant, &switch);
            words[mask] |= 1 << d;
            words[sizes.reset_at(s, d)..][..2].fill(beside_wall(wall));
        }
        _ => {}
    }
}

/// The level next to one, towards 0.
fn beside_wall(wall: i32) -> i32 {
    if wall > 0 {
        wall - 1
    } else {
        wall + 1
    }
}

fn target_wall(plant: &Plant, switch: &Switch) -> i32 {
    plant.location(switch.target).invariant[2 * switch.d + switch.target_side]
}

/// The kinds of change to the head field of a model file that `damaged_head` makes.
pub const HEAD_DAMAGE: [&str; 6] = [
    "the first tag of the other edition",
    "a first tag of no edition",
    "a head field of tag 9 and another length",
    "a head field of tag 9 that is not whole",
    "a head field of tag 9 and nothing else",
    "tag 9 where a record is due",
];

/// A model file with one change to its head field. Gives the kind too.
pub fn damaged_head(random: &mut Random, plant: &Plant) -> (Vec<u8>, &'static str) {
    let mut bytes = model_file(plant.words());
    let kind = random.below(HEAD_DAMAGE.len());
    match kind {
        0 => bytes[0] = head_tag(plant.edition.other()),
        1 => bytes[0] = random.pick(&[0, LOCATION, 7, CUT, 10, 128 + HEAD, 128 + HEAD_2, 255]),
        2 => {
            let words = [2, HEAD_FIELD_WORDS - 1, HEAD_FIELD_WORDS + 1];
            bytes.splice(..HEAD_FIELD_BYTES, field(HEAD_2, &plant.words()[..random.pick(&words)]));
        }
        3 => {
            bytes[0] = HEAD_2;
            bytes.truncate(random.below(HEAD_FIELD_BYTES));
        }
        4 => {
            bytes[0] = HEAD_2;
            bytes.truncate(HEAD_FIELD_BYTES);
        }
        _ => {
            let places = field_places(&bytes);
            bytes[places[1 + random.below(places.len() - 2)]] = HEAD_2;
        }
    }
    (bytes, HEAD_DAMAGE[kind])
}

/// The kinds of change to the cuts of a model file that `damaged_cuts` makes.
pub const CUT_DAMAGE: [&str; 17] = [
    "a cut's field that ends in its head",
    "a cut's field that ends in its payload",
    "a cut's field of another length",
    "a cut of a location that does not exist",
    "a cut of a location below 0",
    "cuts in another order",
    "two cuts of one location",
    "a cut too many",
    "a cut of variable -1",
    "a cut of variable -2",
    "a cut of variable n",
    "a cut at an end of the invariant",
    "a cut outside the invariant",
    "another tag after the boxes",
    "a bad invariant and a cut of variable -1",
    "a bad invariant and a cut of variable -2",
    "a bad box and a bad cut",
];

/// A model file with one change to its cuts; one is put in where there is none. Gives the kind too.
pub fn damaged_cuts(random: &mut Random, plant: &Plant) -> (Vec<u8>, &'static str) {
    let sizes = plant.sizes;
    // The last kind needs a box.
    let kind = random.below(CUT_DAMAGE.len() - (sizes.forbidden == 0) as usize);
    let mut words = plant.words().to_vec();
    let mut cuts: Vec<Vec<i32>> = Vec::new();
    for l in 0..sizes.locations {
        let cut = &mut words[sizes.cut_at(l)..sizes.cut_at(l + 1)];
        if cut[0] != -1 || kind == 7 {
            cuts.push(vec![l as i32, cut[0].max(0), cut[1]]);
        }
        cut.copy_from_slice(&[-1, 0]);
    }
    if cuts.is_empty() {
        let l = random.below(sizes.locations);
        cuts.push(vec![l as i32, 0, plant.location(l).invariant[0] + 1]);
    }
    let chosen = random.below(cuts.len());
    let last = cuts.len() - 1;
    let i = random.below(sizes.n);
    let range = |l: i32| &plant.location(l as usize).invariant[2 * i..2 * i + 2];
    let mut tag = CUT;
    match kind {
        0 | 1 => {}
        2 if random.chance(1, 2) => cuts[chosen].push(0),
        2 => cuts[chosen].truncate(random.below(3)),
        3 => cuts[last][0] = random.pick(&[sizes.locations as i32, i32::MAX]),
        4 => cuts[0][0] = random.pick(&[-1, i32::MIN]),
        5 => cuts.push(vec![random.below(cuts[last][0] as usize + 1) as i32, 0, 0]),
        6 => cuts.insert(chosen, cuts[chosen].clone()),
        7 => cuts.push(vec![random.pick(&[sizes.locations as i32, sizes.locations as i32 - 1]), 0, 1]),
        8 => cuts[chosen][1] = -1,
        9 => cuts[chosen][1] = random.pick(&[-2, i32::MIN]),
        10 => cuts[chosen][1] = random.pick(&[sizes.n as i32, i32::MAX]),
        11 => cuts[chosen] = vec![cuts[chosen][0], i as i32, random.pick(range(cuts[chosen][0]))],
        12 => {
            let (low, high) = (range(cuts[chosen][0])[0], range(cuts[chosen][0])[1]);
            let value = random.pick(&[low - 1, high + 1, i32::MIN, i32::MAX]);
            cuts[chosen] = vec![cuts[chosen][0], i as i32, value];
        }
        13 => tag = random.pick(&[0, HEAD, LOCATION, SWITCH, FORBIDDEN, FACE, TABLE_HEAD, 7, HEAD_2, 255]),
        14 | 15 => {
            cuts[chosen][1] = if kind == 14 { -1 } else { -2 };
            words[sizes.location_at(random.below(sizes.locations))] = LEVEL + 1;
        }
        _ => {
            let record = sizes.forbidden_at(random.below(sizes.forbidden));
            words[record] = random.pick(&[-1, sizes.locations as i32]);
            cuts[chosen][1] = random.pick(&[-2, sizes.n as i32]);
        }
    }
    let mut bytes = file_of_words(&sizes, &words);
    for (number, cut) in cuts.iter().enumerate() {
        bytes.extend(field(if number == chosen { tag } else { CUT }, cut));
    }
    match kind {
        0 => bytes.truncate(bytes.len() - 13 - random.below(2)),
        1 => bytes.truncate(bytes.len() - 1 - random.below(12)),
        _ => {}
    }
    (bytes, CUT_DAMAGE[kind])
}

/// Where the fields of a file begin, and where the last one ends (as far as it is whole).
pub fn field_places(bytes: &[u8]) -> Vec<usize> {
    let mut places = vec![0];
    let mut at = 0;
    while at + 3 <= bytes.len() {
        at += 3 + u16::from_be_bytes([bytes[at + 1], bytes[at + 2]]) as usize;
        if at > bytes.len() {
            break;
        }
        places.push(at);
    }
    places
}

/// The kinds of change that `damage_bytes` makes.
pub const BYTE_DAMAGE: [&str; 16] = [
    "bits flipped",
    "a byte appended",
    "a byte replaced",
    "ends anywhere",
    "ends at a field's head",
    "ends before a field's end",
    "zeros appended",
    "a field appended",
    "a byte taken out",
    "a byte put in",
    "another tag",
    "another length",
    "a field taken out",
    "a field doubled",
    "two fields exchanged",
    "a word more or fewer",
];

/// One change to the bytes of a file; gives its kind.
pub fn damage_bytes(random: &mut Random, bytes: &mut Vec<u8>) -> &'static str {
    let places = field_places(bytes);
    let fields = places.len() - 1;
    if bytes.is_empty() || fields == 0 {
        bytes.push(random.next() as u8);
        return BYTE_DAMAGE[1];
    }
    let chosen = random.below(fields);
    let (from, to) = (places[chosen], places[chosen + 1]);
    let any = random.below(bytes.len());
    let kind = random.below(BYTE_DAMAGE.len());
    match kind {
        0 => {
            for _ in 0..1 + random.below(3) {
                let place = random.below(bytes.len());
                bytes[place] ^= 1 << random.below(8);
            }
        }
        1 => bytes.push(random.next() as u8),
        2 => bytes[any] = random.next() as u8,
        3 => bytes.truncate(any),
        4 => bytes.truncate(from + random.below(4)),
        5 => bytes.truncate(to - 1 - random.below(3)),
        6 => bytes.extend(vec![0; 1 + random.below(4)]),
        7 => {
            let again = bytes[from..to].to_vec();
            bytes.extend(again);
        }
        8 => {
            bytes.remove(any);
        }
        9 => bytes.insert(any, random.next() as u8),
        10 => bytes[from] = random.pick(&[0, HEAD, LOCATION, SWITCH, FORBIDDEN, FACE, TABLE_HEAD, CUT, HEAD_2, 255]),
        11 => {
            let length = u16::from_be_bytes([bytes[from + 1], bytes[from + 2]]);
            let change = random.pick(&[1u16, 4, 65535, 65532, 256]);
            bytes[from + 1..from + 3].copy_from_slice(&length.wrapping_add(change).to_be_bytes());
        }
        12 => {
            bytes.drain(from..to);
        }
        13 => {
            let again = bytes[from..to].to_vec();
            bytes.splice(to..to, again);
        }
        14 => {
            let other = random.below(fields);
            let (a, b) = (chosen.min(other), chosen.max(other));
            if a != b {
                let mut changed = bytes[..places[a]].to_vec();
                changed.extend(&bytes[places[b]..places[b + 1]]);
                changed.extend(&bytes[places[a + 1]..places[b]]);
                changed.extend(&bytes[places[a]..places[a + 1]]);
                changed.extend(&bytes[places[b + 1]..]);
                *bytes = changed;
            }
        }
        _ => {
            // A length that is right for its words.
            if random.chance(1, 2) {
                bytes.splice(to..to, [0; 4]);
                let length = (to - from - 3 + 4) as u16;
                bytes[from + 1..from + 3].copy_from_slice(&length.to_be_bytes());
            } else if to - from >= 7 {
                bytes.drain(to - 4..to);
                let length = (to - from - 3 - 4) as u16;
                bytes[from + 1..from + 3].copy_from_slice(&length.to_be_bytes());
            }
        }
    }
    BYTE_DAMAGE[kind]
}

/// The kinds of change to the fields of a table file that `damaged_table_file` makes. The last of them
/// needs a model without cuts, the four before it one with cuts.
pub const FIELD_DAMAGE: [&str; 11] = [
    "another count of faces",
    "a location that does not exist",
    "a face that does not exist",
    "a face twice",
    "faces in another order",
    "a face left out, and counted so",
    "a piece that does not exist",
    "a second piece where no cut is",
    "pieces in another order",
    "the piece left out",
    "a piece in a model without cuts",
];

/// A table file with one change, in its words, its fields or its bytes; gives the kind too.
pub fn damaged_table_file(random: &mut Random, plant: &Plant, table: &[i32]) -> (Vec<u8>, &'static str) {
    let kind = random.below(10);
    if kind < 4 {
        let mut table = table.to_vec();
        let label = damage_faces(random, plant, &mut table);
        return (joined_fields(&face_records(plant, &table), None), label);
    }
    let mut records = face_records(plant, table);
    if kind < 7 {
        let (count, label) = damage_fields(random, plant, &mut records);
        return (joined_fields(&records, count), label);
    }
    let mut bytes = joined_fields(&records, None);
    let label = damage_bytes(random, &mut bytes);
    (bytes, label)
}

/// The records of the pieces whose flag is not 0.
fn face_records(plant: &Plant, table: &[i32]) -> Vec<Vec<i32>> {
    let mut records = Vec::new();
    for piece in plant.all_pieces() {
        let words = &table[plant.piece_places(piece)];
        if words[0] != 0 {
            let mut record = vec![piece.location as i32, piece.face as i32];
            if plant.any_cut() {
                record.push(piece.piece as i32);
            }
            record.extend(&words[1..]);
            records.push(record);
        }
    }
    records
}

/// The table file of these records, with another count at its head if there is one.
fn joined_fields(records: &[Vec<i32>], count: Option<i32>) -> Vec<u8> {
    let mut bytes = field(TABLE_HEAD, &[count.unwrap_or(records.len() as i32)]);
    for record in records {
        bytes.extend(field(FACE, record));
    }
    bytes
}

/// A kind of change that these records can have, and the record that it is made to.
fn field_to_damage(random: &mut Random, plant: &Plant, records: &[Vec<i32>]) -> (usize, usize) {
    let any = random.below(records.len().max(1));
    let kinds = if plant.any_cut() { 10 } else { 7 };
    let kind = match random.below(kinds) {
        _ if records.is_empty() => 0,
        6 if !plant.any_cut() => 10,
        kind => kind,
    };
    let fits = |at: &usize| match kind {
        7 => plant.cut(records[*at][0] as usize).is_none(),
        8 => *at > 0 && records[*at - 1][..2] == records[*at][..2],
        _ => *at == any,
    };
    let fitting: Vec<usize> = (0..records.len()).filter(fits).collect();
    if fitting.is_empty() {
        return (0, any);
    }
    (kind, random.pick(&fitting))
}

/// One change to the records of a table file, or another count; gives that count and the kind.
fn damage_fields(random: &mut Random, plant: &Plant, records: &mut Vec<Vec<i32>>) -> (Option<i32>, &'static str) {
    let sizes = plant.sizes;
    let (kind, chosen) = field_to_damage(random, plant, records);
    let whole = random.chance(1, 2);
    let mut count = None;
    match kind {
        0 => {
            let right = records.len() as i32;
            let most = plant.pieces() as i32;
            let faces = (sizes.faces() * sizes.locations) as i32;
            count = Some(random.pick(&[right + 1, right - 1, -1, most, most + 1, faces + 1, 0, i32::MIN, i32::MAX]));
        }
        1 => records[chosen][0] = random.pick(&[-1, sizes.locations as i32, i32::MAX]),
        2 => records[chosen][1] = random.pick(&[-1, sizes.faces() as i32, i32::MIN]),
        3 => {
            let again = records[chosen].clone();
            records.insert(chosen, again);
        }
        4 => {
            let other = random.below(records.len());
            records.swap(chosen, other);
        }
        5 => {
            records.remove(chosen);
        }
        6 => records[chosen][2] = random.pick(&[-1, 2, i32::MIN, i32::MAX]),
        7 => records[chosen][2] = 1,
        8 => records.swap(chosen - 1, chosen),
        // Of one field, or of all.
        9 => records.iter_mut().enumerate().filter(|(at, _)| whole || *at == chosen).for_each(|(_, record)| {
            record.remove(2);
        }),
        _ => records
            .iter_mut()
            .enumerate()
            .filter(|(at, _)| whole || *at == chosen)
            .for_each(|(_, record)| record.insert(2, 0)),
    }
    (count, FIELD_DAMAGE[kind])
}
