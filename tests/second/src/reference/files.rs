//! Files: fields of a one-byte tag, a two-byte length, a payload; words of four bytes,
//! highest byte first.

use crate::reference::model::{ask_records, Edition, Model, Piece, Plant, Sizes, EDITION_AT};
use crate::reference::tables::well_formed;
use crate::reference::Refusal;

/// The first tag of a model file of edition 1.
pub const HEAD: u8 = 1;
pub const LOCATION: u8 = 2;
pub const SWITCH: u8 = 3;
pub const FORBIDDEN: u8 = 4;
pub const FACE: u8 = 5;
pub const TABLE_HEAD: u8 = 6;
pub const CUT: u8 = 8;
/// The first tag of a model file of edition 2 (document 02, T-10).
pub const HEAD_2: u8 = 9;

/// Words of a model file's head field: n, L, E, B. The tag gives the edition.
pub const HEAD_FIELD_WORDS: usize = 4;
/// Words of a cut's field: location, variable, value.
pub const CUT_FIELD_WORDS: usize = 3;
/// Bytes of the head field.
pub const HEAD_FIELD_BYTES: usize = 3 + 4 * HEAD_FIELD_WORDS;

/// Bytes of the longest model file.
pub const MOST_MODEL_BYTES: usize = 29_907;

/// The first tag of an edition.
pub fn head_tag(edition: Edition) -> u8 {
    match edition {
        Edition::One => HEAD,
        Edition::Two => HEAD_2,
    }
}

/// The bytes of one field.
pub fn field(tag: u8, words: &[i32]) -> Vec<u8> {
    let mut bytes = vec![tag];
    bytes.extend(((4 * words.len()) as u16).to_be_bytes());
    for word in words {
        bytes.extend(word.to_be_bytes());
    }
    bytes
}

/// The model file of a model's words (the sizes at the head must fit the list).
pub fn model_file(words: &[i32]) -> Vec<u8> {
    let sizes = Sizes {
        n: words[0] as usize,
        locations: words[1] as usize,
        switches: words[2] as usize,
        forbidden: words[3] as usize,
    };
    file_of_words(&sizes, words)
}

/// The file of words with the fields that these sizes want, whatever the words are. A location has a
/// field for its cut unless its two words are -1 and 0. An edition word that is neither 1 nor 2 has no
/// tag: 0 stands there, which question 1 refuses.
pub fn file_of_words(sizes: &Sizes, words: &[i32]) -> Vec<u8> {
    let tag = Edition::ask(words[EDITION_AT]).map_or(0, head_tag);
    let mut bytes = field(tag, &words[..HEAD_FIELD_WORDS]);
    for l in 0..sizes.locations {
        bytes.extend(field(LOCATION, &words[sizes.location_at(l)..sizes.location_at(l + 1)]));
    }
    for s in 0..sizes.switches {
        bytes.extend(field(SWITCH, &words[sizes.switch_at(s)..sizes.switch_at(s + 1)]));
    }
    for f in 0..sizes.forbidden {
        bytes.extend(field(FORBIDDEN, &words[sizes.forbidden_at(f)..sizes.forbidden_at(f + 1)]));
    }
    for l in 0..sizes.locations {
        let cut = &words[sizes.cut_at(l)..sizes.cut_at(l + 1)];
        if cut != [-1, 0] {
            bytes.extend(field(CUT, &[l as i32, cut[0], cut[1]]));
        }
    }
    bytes
}

/// Bytes of a model's own file (question 40): of each field three and its words, with a field for each cut.
pub fn model_file_bytes(plant: &Plant) -> usize {
    let sizes = plant.sizes;
    let fields = [
        (1, HEAD_FIELD_WORDS),
        (sizes.locations, sizes.location_words()),
        (sizes.switches, sizes.switch_words()),
        (sizes.forbidden, sizes.forbidden_words()),
        (plant.cuts(), CUT_FIELD_WORDS),
    ];
    fields.into_iter().map(|(count, words)| count * (3 + 4 * words)).sum()
}

/// Writes a model's file into the byte buffer and gives how many bytes it has (document 02, T-01).
/// The rest of the buffer is unchanged; a refusal changes nothing.
pub fn write_model(model: &[i32], buffer: &mut [u8]) -> Result<usize, Refusal> {
    let plant = Plant::from_words(model)?;
    if buffer.len() < model_file_bytes(&plant) {
        return Err(40);
    }
    Ok(put(&model_file(plant.words()), buffer))
}

/// Puts a file at the beginning of the buffer and gives how many bytes it has.
pub fn put(file: &[u8], buffer: &mut [u8]) -> usize {
    buffer[..file.len()].copy_from_slice(file);
    file.len()
}

/// A cursor over the bytes of a file.
struct Cursor<'a> {
    bytes: &'a [u8],
}

/// What the next field looks like.
enum Next<'a> {
    /// Fewer than three bytes left, or another tag.
    NotDue,
    /// The due tag, but another length or not all of the payload.
    Short,
    /// The payload.
    Payload(&'a [u8]),
}

impl<'a> Cursor<'a> {
    /// The next field, if it has this tag and a payload of this many words.
    fn next(&mut self, tag: u8, words: usize) -> Next<'a> {
        if self.bytes.len() < 3 || self.bytes[0] != tag {
            return Next::NotDue;
        }
        let length = u16::from_be_bytes([self.bytes[1], self.bytes[2]]) as usize;
        if length != 4 * words || self.bytes.len() - 3 < length {
            return Next::Short;
        }
        let (payload, rest) = self.bytes[3..].split_at(length);
        self.bytes = rest;
        Next::Payload(payload)
    }

    fn ended(&self) -> bool {
        self.bytes.is_empty()
    }
}

fn words_of(payload: &[u8]) -> impl Iterator<Item = i32> + '_ {
    payload.chunks_exact(4).map(|b| i32::from_be_bytes([b[0], b[1], b[2], b[3]]))
}

/// Questions 1 to 4 of a model file: its counts, its edition by the first tag, and the cursor after its head.
fn read_head(file: &[u8]) -> Result<(Sizes, Edition, Cursor<'_>), Refusal> {
    let mut cursor = Cursor { bytes: file };
    let begins = |edition: &Edition| file.first() == Some(&head_tag(*edition));
    let edition = Edition::BOTH.into_iter().find(begins).ok_or(1u32)?;
    let Next::Payload(payload) = cursor.next(head_tag(edition), HEAD_FIELD_WORDS) else {
        return Err(1);
    };
    let mut words = words_of(payload);
    let mut next = || words.next().expect("the head field has four words");
    let sizes = Sizes::ask(next(), next(), next(), next())?;
    Ok((sizes, edition, cursor))
}

/// A model file's words, held as long as they need to be: questions 1 to 4, 6 to 8, 11 to 19, 46.
pub fn model_of_file(file: &[u8]) -> Result<Model, Refusal> {
    let (sizes, edition, cursor) = read_head(file)?;
    read_records(cursor, sizes, edition)
}

/// Reads a model file into the word buffer and gives how many words it has.
/// Refused by 6 to 8, 11 to 19 or 46: the whole buffer is zero. Refused by 1 to 5: unchanged.
pub fn read_model(file: &[u8], buffer: &mut [i32]) -> Result<usize, Refusal> {
    let (sizes, edition, cursor) = read_head(file)?;
    if buffer.len() < sizes.model_words() {
        return Err(5);
    }
    match read_records(cursor, sizes, edition) {
        Ok(model) => {
            buffer[..model.words.len()].copy_from_slice(&model.words);
            Ok(model.words.len())
        }
        Err(refusal) => {
            buffer.fill(0);
            Err(refusal)
        }
    }
}

/// Questions 6 to 8, 11 to 19 and 46: the words of the head, of the records and of the cuts behind it.
fn read_records(mut cursor: Cursor, sizes: Sizes, edition: Edition) -> Result<Model, Refusal> {
    let mut words = Vec::with_capacity(sizes.model_words());
    words.extend([sizes.n, sizes.locations, sizes.switches, sizes.forbidden].map(|count| count as i32));
    words.push(edition.word());
    let due = [
        (LOCATION, sizes.locations, sizes.location_words()),
        (SWITCH, sizes.switches, sizes.switch_words()),
        (FORBIDDEN, sizes.forbidden, sizes.forbidden_words()),
    ];
    for (tag, count, length) in due {
        for _ in 0..count {
            match cursor.next(tag, length) {
                Next::NotDue => return Err(6),
                Next::Short => return Err(7),
                Next::Payload(payload) => words.extend(words_of(payload)),
            }
        }
    }
    words.extend(read_cuts(cursor, &sizes)?);
    ask_records(&sizes, edition, &words)?;
    Ok(Model { sizes, edition, words })
}

/// Where the end of the file is expected there may be cuts. Another tag gets 8. A cut's field that is
/// not whole, of another length, of a location that does not exist or does not come after the one
/// before, or of variable -1, gets 46.
fn read_cuts(mut cursor: Cursor, sizes: &Sizes) -> Result<Vec<i32>, Refusal> {
    let mut cuts = [-1, 0].repeat(sizes.locations);
    let mut least = 0;
    while !cursor.ended() {
        if cursor.bytes[0] != CUT {
            return Err(8);
        }
        let Next::Payload(payload) = cursor.next(CUT, CUT_FIELD_WORDS) else {
            return Err(46);
        };
        let cut: Vec<i32> = words_of(payload).collect();
        if !(least..sizes.locations as i32).contains(&cut[0]) || cut[1] == -1 {
            return Err(46);
        }
        cuts[2 * cut[0] as usize..][..2].copy_from_slice(&cut[1..]);
        least = cut[0] + 1;
    }
    Ok(cuts)
}

/// The table file of a well-formed table.
pub fn table_file(plant: &Plant, table: &[i32]) -> Vec<u8> {
    let pieces = table.chunks_exact(plant.sizes.face_words());
    let count = pieces.clone().filter(|words| words[0] == 1).count();
    let payload = 4 * plant.field_words();
    let mut bytes = Vec::with_capacity(7 + count * (3 + payload));
    bytes.extend([TABLE_HEAD, 0, 4]);
    bytes.extend((count as i32).to_be_bytes());
    for (piece, words) in plant.all_pieces().zip(pieces).filter(|(_, words)| words[0] == 1) {
        bytes.extend([FACE, 0, payload as u8]);
        bytes.extend((piece.location as i32).to_be_bytes());
        bytes.extend((piece.face as i32).to_be_bytes());
        if plant.any_cut() {
            bytes.extend((piece.piece as i32).to_be_bytes());
        }
        words[1..].iter().for_each(|word| bytes.extend(word.to_be_bytes()));
    }
    bytes
}

/// Writes a table file into the byte buffer and gives how many bytes it has.
/// The rest of the buffer is unchanged; a refusal changes nothing.
pub fn write_table(model: &[i32], list: &[i32], buffer: &mut [u8]) -> Result<usize, Refusal> {
    let plant = Plant::from_words(model)?;
    let size = plant.table_words();
    if list.len() < size {
        return Err(20);
    }
    let table = &list[..size];
    if !well_formed(&plant, table) {
        return Err(32);
    }
    if buffer.len() < plant.table_file_room() {
        return Err(39);
    }
    Ok(put(&table_file(&plant, table), buffer))
}

/// Reads a table file into the word buffer and gives how many words the table has.
/// Refused by 32 or 35 to 38: the whole buffer is zero. Any other refusal: unchanged.
pub fn read_table(model: &[i32], file: &[u8], buffer: &mut [i32]) -> Result<usize, Refusal> {
    let plant = Plant::from_words(model)?;
    let size = plant.table_words();
    if buffer.len() < size {
        return Err(20);
    }
    match parse_table(&plant, file) {
        Ok(table) => {
            buffer[..size].copy_from_slice(&table);
            Ok(size)
        }
        Err(refusal) => {
            buffer.fill(0);
            Err(refusal)
        }
    }
}

/// Questions 35 to 38, then 32; the table's words.
pub fn parse_table(plant: &Plant, file: &[u8]) -> Result<Vec<i32>, Refusal> {
    let sizes = plant.sizes;
    let mut cursor = Cursor { bytes: file };
    let Next::Payload(payload) = cursor.next(TABLE_HEAD, 1) else {
        return Err(35);
    };
    let count = words_of(payload).next().unwrap();
    if count < 0 || count as usize > plant.pieces() {
        return Err(35);
    }
    let mut table = vec![0; plant.table_words()];
    let mut before: Option<Piece> = None;
    for _ in 0..count {
        let Next::Payload(payload) = cursor.next(FACE, plant.field_words()) else {
            return Err(36);
        };
        let mut record = words_of(payload);
        let mut next = || record.next().expect("a face's field has the words of its record");
        let (l, face) = (next(), next());
        let number = if plant.any_cut() { next() } else { 0 };
        let exists = (0..sizes.locations as i32).contains(&l)
            && (0..sizes.faces() as i32).contains(&face)
            && (0..plant.pieces_of(l as usize) as i32).contains(&number);
        if !exists {
            return Err(37);
        }
        let piece = Piece { location: l as usize, face: face as usize, piece: number as usize };
        if before.is_some_and(|earlier| piece <= earlier) {
            return Err(37);
        }
        before = Some(piece);
        let words = &mut table[plant.piece_places(piece)];
        words[0] = 1;
        words[1..].iter_mut().for_each(|bound| *bound = next());
    }
    if !cursor.ended() {
        return Err(38);
    }
    if !well_formed(plant, &table) {
        return Err(32);
    }
    Ok(table)
}
