//! The plant model as a list of signed 32-bit words, and the questions asked of it.

use std::ops::Range;

use crate::reference::Refusal;

/// Levels lie in -LEVEL..LEVEL.
pub const LEVEL: i32 = 1_000_000;
/// Rates lie in -RATE..RATE.
pub const RATE: i32 = 1_000;
pub const MAX_VARIABLES: usize = 6;
pub const MAX_LOCATIONS: usize = 64;
pub const MAX_SWITCHES: usize = 128;
pub const MAX_FORBIDDEN: usize = 64;
/// Room for the bounds of one box of the largest n.
pub const MAX_BOX: usize = 2 * MAX_VARIABLES;

/// Words at the head of a model: n, L, E, B and the edition (document 02, T-10).
pub const HEAD_WORDS: usize = 5;
/// Place of the edition, the head's last word.
pub const EDITION_AT: usize = HEAD_WORDS - 1;
/// Words of a switch before its boxes: source, target, d, both sides and the mask.
pub const SWITCH_HEAD: usize = 6;

/// Table words of one location without a cut (document 02, T-04).
pub fn words_per_location(n: usize) -> usize {
    2 * n * (1 + 2 * n)
}

/// A model's edition (document 02, T-10). In the first a masked variable has one reset value; in the second one
/// other than d may have a reset range.
#[derive(Clone, Copy, Debug, Default, PartialEq, Eq, PartialOrd)]
pub enum Edition {
    #[default]
    One,
    Two,
}

impl Edition {
    pub const BOTH: [Edition; 2] = [Edition::One, Edition::Two];

    /// Question 43 of the edition word.
    pub fn ask(word: i32) -> Result<Edition, Refusal> {
        Edition::BOTH.into_iter().find(|edition| edition.word() == word).ok_or(43)
    }

    pub fn word(self) -> i32 {
        match self {
            Edition::One => 1,
            Edition::Two => 2,
        }
    }

    pub fn other(self) -> Edition {
        match self {
            Edition::One => Edition::Two,
            Edition::Two => Edition::One,
        }
    }
}

/// The four counts at the head of a model, once they have been allowed.
#[derive(Clone, Copy, Debug, PartialEq, Eq)]
pub struct Sizes {
    pub n: usize,
    pub locations: usize,
    pub switches: usize,
    pub forbidden: usize,
}

impl Sizes {
    /// Questions 2, 3 and 4 of the head's four counts.
    pub fn ask(n: i32, l: i32, e: i32, b: i32) -> Result<Sizes, Refusal> {
        if !(1..=MAX_VARIABLES as i32).contains(&n) {
            return Err(2);
        }
        if !(1..=MAX_LOCATIONS as i32).contains(&l) {
            return Err(3);
        }
        if !(0..=MAX_SWITCHES as i32).contains(&e) || !(0..=MAX_FORBIDDEN as i32).contains(&b) {
            return Err(4);
        }
        Ok(Sizes { n: n as usize, locations: l as usize, switches: e as usize, forbidden: b as usize })
    }

    pub fn location_words(&self) -> usize {
        6 * self.n + 1
    }
    pub fn switch_words(&self) -> usize {
        SWITCH_HEAD + 4 * self.n
    }
    pub fn forbidden_words(&self) -> usize {
        1 + 2 * self.n
    }
    /// Place of the first word of location l.
    pub fn location_at(&self, l: usize) -> usize {
        HEAD_WORDS + l * self.location_words()
    }
    /// Place of the first word of switch s.
    pub fn switch_at(&self, s: usize) -> usize {
        self.location_at(self.locations) + s * self.switch_words()
    }
    /// Place of the low of variable i in switch s's reset box; the high comes behind it.
    pub fn reset_at(&self, s: usize, i: usize) -> usize {
        self.switch_at(s) + SWITCH_HEAD + 2 * self.n + 2 * i
    }
    /// Place of the first word of forbidden box f.
    pub fn forbidden_at(&self, f: usize) -> usize {
        self.switch_at(self.switches) + f * self.forbidden_words()
    }
    /// Place of the variable of location l's cut; the value comes behind it.
    pub fn cut_at(&self, l: usize) -> usize {
        self.forbidden_at(self.forbidden) + 2 * l
    }
    /// Words of the whole model.
    pub fn model_words(&self) -> usize {
        self.cut_at(self.locations)
    }
    /// Faces of one location.
    pub fn faces(&self) -> usize {
        2 * self.n
    }
    /// Words of one face, or of one piece of it: the flag, then a low and a high for each variable.
    pub fn face_words(&self) -> usize {
        1 + 2 * self.n
    }
}

/// A location's cut (document 02, T-12): each of its faces with another wall variable is kept as two
/// pieces, up to the value and from the value. Its other faces have a second piece that is absent.
#[derive(Clone, Copy, Debug, PartialEq, Eq)]
pub struct Cut {
    pub variable: usize,
    pub value: i32,
}

/// A piece of a location's face: the first (0) is all there is where no cut is.
#[derive(Clone, Copy, Debug, PartialEq, Eq, PartialOrd, Ord)]
pub struct Piece {
    pub location: usize,
    pub face: usize,
    pub piece: usize,
}

/// A model that has passed its questions, over its own words only.
#[derive(Clone, Copy, Debug)]
pub struct Plant<'a> {
    pub sizes: Sizes,
    pub edition: Edition,
    words: &'a [i32],
    /// The words of the cuts, at the end of all words.
    cuts: &'a [i32],
    /// How many pieces stand before each location in a table, and how many there are.
    before: [u16; MAX_LOCATIONS + 1],
}

#[derive(Clone, Copy, Debug)]
pub struct Location<'a> {
    pub invariant: &'a [i32],
    pub rates: &'a [i32],
    pub started: bool,
    /// The start box, which may stick out of the invariant: what is used of it is `start_part`.
    pub start: &'a [i32],
    pub cut: Option<Cut>,
}

impl Location<'_> {
    /// The start part (document 02, T-02): the start box cut to the invariant. None under flag 0 and where
    /// the cut is empty.
    #[inline]
    pub fn start_part(&self) -> Option<[i32; MAX_BOX]> {
        if !self.started {
            return None;
        }
        let mut part = [0; MAX_BOX];
        for i in 0..self.invariant.len() / 2 {
            let low = self.start[2 * i].max(self.invariant[2 * i]);
            let high = self.start[2 * i + 1].min(self.invariant[2 * i + 1]);
            if low > high {
                return None;
            }
            part[2 * i] = low;
            part[2 * i + 1] = high;
        }
        Some(part)
    }
}

#[derive(Clone, Copy, Debug)]
pub struct Switch<'a> {
    pub source: usize,
    pub target: usize,
    pub d: usize,
    pub source_side: usize,
    pub target_side: usize,
    pub mask: u32,
    pub guard: &'a [i32],
    /// The reset box: of a masked variable the range that it is set to.
    pub reset: &'a [i32],
}

impl Switch<'_> {
    pub fn masked(&self, i: usize) -> bool {
        self.mask >> i & 1 == 1
    }
}

#[derive(Clone, Copy, Debug)]
pub struct Forbidden<'a> {
    pub location: usize,
    pub bounds: &'a [i32],
}

/// A model out of a file, once it has passed its questions.
pub struct Model {
    pub sizes: Sizes,
    pub edition: Edition,
    pub words: Vec<i32>,
}

impl Model {
    pub fn plant(&self) -> Plant<'_> {
        Plant::new(self.sizes, self.edition, &self.words)
    }
}

/// The questions of the head of a list of words: 5 under five words, then 2 to 4, then 43.
pub fn ask_head(list: &[i32]) -> Result<(Sizes, Edition), Refusal> {
    let &[n, l, e, b, edition, ..] = list else {
        return Err(5);
    };
    Ok((Sizes::ask(n, l, e, b)?, Edition::ask(edition)?))
}

impl<'a> Plant<'a> {
    /// Words that have passed all questions, with their sizes.
    fn new(sizes: Sizes, edition: Edition, words: &'a [i32]) -> Plant<'a> {
        let cuts = &words[sizes.cut_at(0)..];
        let mut plant = Plant { sizes, edition, words, cuts, before: [0; MAX_LOCATIONS + 1] };
        for l in 0..sizes.locations {
            let pieces = sizes.faces() * if plant.cut(l).is_some() { 2 } else { 1 };
            plant.before[l + 1] = plant.before[l] + pieces as u16;
        }
        plant
    }

    /// All questions of a model given as words: those of its head, then 5, 11 to 19, 46.
    pub fn from_words(list: &'a [i32]) -> Result<Plant<'a>, Refusal> {
        let (sizes, edition) = ask_head(list)?;
        if list.len() < sizes.model_words() {
            return Err(5);
        }
        let words = &list[..sizes.model_words()];
        ask_records(&sizes, edition, words)?;
        Ok(Plant::new(sizes, edition, words))
    }

    /// The model's own words.
    pub fn words(&self) -> &'a [i32] {
        self.words
    }

    #[inline]
    pub fn location(&self, l: usize) -> Location<'a> {
        let two_n = 2 * self.sizes.n;
        let record = &self.words[self.sizes.location_at(l)..][..self.sizes.location_words()];
        Location {
            invariant: &record[..two_n],
            rates: &record[two_n..2 * two_n],
            started: record[2 * two_n] == 1,
            start: &record[2 * two_n + 1..],
            cut: self.cut(l),
        }
    }

    #[inline]
    pub fn cut(&self, l: usize) -> Option<Cut> {
        let (variable, value) = (self.cuts[2 * l], self.cuts[2 * l + 1]);
        (variable != -1).then_some(Cut { variable: variable as usize, value })
    }

    /// How many locations are cut.
    pub fn cuts(&self) -> usize {
        (0..self.sizes.locations).filter(|&l| self.cut(l).is_some()).count()
    }

    /// Is any location cut? Then the fields of a table file and the lines of a listing name the piece.
    pub fn any_cut(&self) -> bool {
        self.pieces() > self.sizes.locations * self.sizes.faces()
    }

    /// Pieces of each face of location l.
    pub fn pieces_of(&self, l: usize) -> usize {
        1 + ((self.before[l + 1] - self.before[l]) as usize > self.sizes.faces()) as usize
    }

    /// Pieces of the whole table.
    pub fn pieces(&self) -> usize {
        self.before[self.sizes.locations] as usize
    }

    /// All pieces in the table's order: by location, then face, then piece.
    pub fn all_pieces(&self) -> impl Iterator<Item = Piece> + '_ {
        (0..self.sizes.locations).flat_map(move |location| {
            (0..self.sizes.faces())
                .flat_map(move |face| (0..self.pieces_of(location)).map(move |piece| Piece { location, face, piece }))
        })
    }

    /// Words of a whole table.
    pub fn table_words(&self) -> usize {
        self.pieces() * self.sizes.face_words()
    }

    /// Where the words of all pieces of location l stand in a table.
    #[inline]
    pub fn location_places(&self, l: usize) -> Range<usize> {
        self.before[l] as usize * self.sizes.face_words()..self.before[l + 1] as usize * self.sizes.face_words()
    }

    /// Where the words of all pieces of a face stand in a table.
    #[inline]
    pub fn face_places(&self, l: usize, face: usize) -> Range<usize> {
        let words = self.pieces_of(l) * self.sizes.face_words();
        let from = self.location_places(l).start + face * words;
        from..from + words
    }

    /// Where the words of one piece stand in a table.
    pub fn piece_places(&self, piece: Piece) -> Range<usize> {
        let words = self.sizes.face_words();
        let from = self.face_places(piece.location, piece.face).start + piece.piece * words;
        from..from + words
    }

    /// The widest box of a piece: its location's invariant, on its wall, on its side of the value. None if
    /// the piece is always absent: the second one on a wall of the cut variable.
    pub fn widest(&self, piece: Piece) -> Option<[i32; MAX_BOX]> {
        let location = self.location(piece.location);
        let mut bounds = [0; MAX_BOX];
        bounds[..2 * self.sizes.n].copy_from_slice(location.invariant);
        if let Some(cut) = location.cut {
            match (cut.variable == piece.face / 2, piece.piece) {
                (true, 0) => {}
                (true, _) => return None,
                (false, 0) => bounds[2 * cut.variable + 1] = cut.value,
                (false, _) => bounds[2 * cut.variable] = cut.value,
            }
        }
        let d = piece.face / 2;
        bounds[2 * d..2 * d + 2].fill(location.invariant[piece.face]);
        Some(bounds)
    }

    /// Words of a piece's field in a table file: location, face, with any cut the piece, and the box.
    pub fn field_words(&self) -> usize {
        2 + self.any_cut() as usize + 2 * self.sizes.n
    }

    /// Bytes that a table file can need at most (question 39).
    pub fn table_file_room(&self) -> usize {
        7 + self.pieces() * (3 + 4 * self.field_words())
    }

    pub fn switch(&self, s: usize) -> Switch<'a> {
        let two_n = 2 * self.sizes.n;
        let record = &self.words[self.sizes.switch_at(s)..][..self.sizes.switch_words()];
        Switch {
            source: record[0] as usize,
            target: record[1] as usize,
            d: record[2] as usize,
            source_side: record[3] as usize,
            target_side: record[4] as usize,
            mask: record[5] as u32,
            guard: &record[SWITCH_HEAD..SWITCH_HEAD + two_n],
            reset: &record[SWITCH_HEAD + two_n..],
        }
    }

    pub fn forbidden(&self, f: usize) -> Forbidden<'a> {
        let record = &self.words[self.sizes.forbidden_at(f)..][..self.sizes.forbidden_words()];
        Forbidden { location: record[0] as usize, bounds: &record[1..] }
    }
}

/// Every low at most its high, and all within least..most.
fn ordered_in_range(bounds: &[i32], least: i32, most: i32) -> bool {
    bounds.chunks_exact(2).all(|r| least <= r[0] && r[0] <= r[1] && r[1] <= most)
}

/// Every low at most its high, and all inside the outer box.
pub fn ordered_inside(bounds: &[i32], outer: &[i32]) -> bool {
    bounds.chunks_exact(2).zip(outer.chunks_exact(2)).all(|(r, o)| o[0] <= r[0] && r[0] <= r[1] && r[1] <= o[1])
}

/// Question 16: in edition 1 every masked variable has a single reset value; in edition 2 d has one, if it is
/// masked.
fn resets_single(edition: Edition, mask: i32, d: usize, reset: &[i32]) -> bool {
    let asked = |i: usize| mask >> i & 1 == 1 && (edition == Edition::One || i == d);
    reset.chunks_exact(2).enumerate().all(|(i, range)| !asked(i) || range[0] == range[1])
}

/// Questions 11 to 19, record by record, then 46, cut by cut. `words` are the model's words, of the
/// right length.
pub fn ask_records(sizes: &Sizes, edition: Edition, words: &[i32]) -> Result<(), Refusal> {
    let n = sizes.n;
    let two_n = 2 * n;
    let invariant_of = |l: usize| &words[sizes.location_at(l)..][..two_n];

    for l in 0..sizes.locations {
        let record = &words[sizes.location_at(l)..][..sizes.location_words()];
        let invariant = &record[..two_n];
        let rates = &record[two_n..2 * two_n];
        let flag = record[2 * two_n];
        let start = &record[2 * two_n + 1..];
        if !ordered_in_range(invariant, -LEVEL, LEVEL) {
            return Err(11);
        }
        if !ordered_in_range(rates, -RATE, RATE) {
            return Err(12);
        }
        let start_stands = match flag {
            0 => start.iter().all(|&w| w == 0),
            1 => ordered_in_range(start, -LEVEL, LEVEL),
            _ => false,
        };
        if !start_stands {
            return Err(13);
        }
    }

    for s in 0..sizes.switches {
        let record = &words[sizes.switch_at(s)..][..sizes.switch_words()];
        let (source, target, d) = (record[0], record[1], record[2]);
        let (source_side, target_side, mask) = (record[3], record[4], record[5]);
        let guard = &record[SWITCH_HEAD..SWITCH_HEAD + two_n];
        let reset = &record[SWITCH_HEAD + two_n..];
        let location_exists = |l: i32| 0 <= l && (l as usize) < sizes.locations;
        let side_exists = |side: i32| side == 0 || side == 1;
        if !(location_exists(source)
            && location_exists(target)
            && 0 <= d
            && (d as usize) < n
            && side_exists(source_side)
            && side_exists(target_side)
            && 0 <= mask
            && mask < 1 << n)
        {
            return Err(14);
        }
        if !ordered_in_range(guard, -LEVEL, LEVEL) || !ordered_in_range(reset, -LEVEL, LEVEL) {
            return Err(15);
        }
        let d = d as usize;
        if !resets_single(edition, mask, d, reset) {
            return Err(16);
        }
        let source_wall = invariant_of(source as usize)[2 * d + source_side as usize];
        let target_wall = invariant_of(target as usize)[2 * d + target_side as usize];
        if guard[2 * d] != source_wall || guard[2 * d + 1] != source_wall {
            return Err(17);
        }
        let arrives = if mask >> d & 1 == 1 { reset[2 * d] } else { source_wall };
        if arrives != target_wall {
            return Err(18);
        }
    }

    for f in 0..sizes.forbidden {
        let record = &words[sizes.forbidden_at(f)..][..sizes.forbidden_words()];
        let location_exists = 0 <= record[0] && (record[0] as usize) < sizes.locations;
        if !location_exists || !ordered_in_range(&record[1..], -LEVEL, LEVEL) {
            return Err(19);
        }
    }

    for l in 0..sizes.locations {
        let (variable, value) = (words[sizes.cut_at(l)], words[sizes.cut_at(l) + 1]);
        let uncut = variable == -1 && value == 0;
        let strictly_inside = || {
            let range = &invariant_of(l)[2 * variable as usize..][..2];
            range[0] < value && value < range[1]
        };
        if !uncut && !((0..n as i32).contains(&variable) && strictly_inside()) {
            return Err(46);
        }
    }
    Ok(())
}
