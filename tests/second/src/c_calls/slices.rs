//! What a call is handed, as lists of slices: what it reads, what it is lent, and how long each is.
//!
//! A slice is known by what it is to the call. What is new in a call is a new slice here and a line of `exports`; no
//! structure has a field for it.

use std::ops::Range;

use super::exports::Call;
use crate::reference::desk::Desk;
use crate::reference::quote::Quote;

/// A slice of a call's parameters. Its numbers are of one size in every call.
#[derive(Clone, Copy, Debug, PartialEq, Eq)]
pub enum Slice {
    /// Model words.
    Model,
    /// A table's words: of check and write_table.
    Table,
    /// A file's bytes: of read_model and read_table.
    File,
    /// The word buffer of read_model; the table buffer of analyse, read_table and desk.
    Words,
    /// The work buffer of analyse and desk.
    Work,
    /// The byte buffer of write_table and write_model.
    FileRoom,
    /// The desk's counters.
    Jobs,
    Passes,
    /// The reply's value.
    Value,
    /// The three values of quote.
    Quote,
}

/// How many slices there are: for lists with a place for each.
const SLICES: usize = Slice::READ.len() + Slice::ROOM.len() + Slice::REPLY.len();

impl Slice {
    /// Those that are only read, of a length that is handed over.
    pub const READ: [Slice; 3] = [Slice::Model, Slice::Table, Slice::File];
    /// Those that are written, of a length that is handed over.
    pub const ROOM: [Slice; 3] = [Slice::Words, Slice::Work, Slice::FileRoom];
    /// Those that are written, of one length always.
    pub const REPLY: [Slice; 4] = [Slice::Jobs, Slice::Passes, Slice::Value, Slice::Quote];

    pub fn is_read(self) -> bool {
        Slice::READ.contains(&self)
    }

    /// Is its length handed over?
    pub fn is_sized(self) -> bool {
        !Slice::REPLY.contains(&self)
    }

    /// Is it a file, or room for one?
    pub fn is_bytes(self) -> bool {
        matches!(self, Slice::File | Slice::FileRoom)
    }

    /// Does it hold what counts from call to call?
    pub fn is_desk(self) -> bool {
        matches!(self, Slice::Jobs | Slice::Passes)
    }

    /// Its length, where that is not handed over.
    fn always(self) -> usize {
        match self {
            Slice::Quote => 3,
            _ => 1,
        }
    }

    /// Its name, for the text of a call's input.
    pub fn name(self) -> &'static str {
        match self {
            Slice::Model => "model",
            Slice::Table => "table",
            Slice::File | Slice::FileRoom => "file",
            Slice::Words => "words",
            Slice::Work => "work",
            Slice::Jobs => "jobs",
            Slice::Passes => "passes",
            Slice::Value => "value",
            Slice::Quote => "quote",
        }
    }
}

/// What a call only reads. A slice that is not handed over is empty.
#[derive(Clone, Copy, Default, PartialEq)]
pub struct Input<'a> {
    words: [&'a [i32]; SLICES],
    bytes: [&'a [u8]; SLICES],
    pub limit: u32,
}

impl<'a> Input<'a> {
    /// Model words alone.
    pub fn of_model(model: &'a [i32]) -> Input<'a> {
        Input::default().with_words(Slice::Model, model)
    }

    /// A file alone.
    pub fn of_file(file: &'a [u8]) -> Input<'a> {
        Input::default().with_bytes(Slice::File, file)
    }

    /// The same with these words as a slice.
    pub fn with_words(mut self, slice: Slice, words: &'a [i32]) -> Input<'a> {
        self.words[slice as usize] = words;
        self
    }

    /// The same with these bytes as a slice.
    pub fn with_bytes(mut self, slice: Slice, bytes: &'a [u8]) -> Input<'a> {
        self.bytes[slice as usize] = bytes;
        self
    }

    pub fn with_model(self, model: &'a [i32]) -> Input<'a> {
        self.with_words(Slice::Model, model)
    }

    pub fn with_table(self, table: &'a [i32]) -> Input<'a> {
        self.with_words(Slice::Table, table)
    }

    pub fn with_file(self, file: &'a [u8]) -> Input<'a> {
        self.with_bytes(Slice::File, file)
    }

    /// The same under this limit.
    pub fn under(self, limit: u32) -> Input<'a> {
        Input { limit, ..self }
    }

    pub fn words(&self, slice: Slice) -> &'a [i32] {
        self.words[slice as usize]
    }

    pub fn bytes(&self, slice: Slice) -> &'a [u8] {
        self.bytes[slice as usize]
    }

    pub fn model(&self) -> &'a [i32] {
        self.words(Slice::Model)
    }

    pub fn table(&self) -> &'a [i32] {
        self.words(Slice::Table)
    }

    pub fn file(&self) -> &'a [u8] {
        self.bytes(Slice::File)
    }

    /// How long a slice is.
    pub fn length(&self, slice: Slice) -> usize {
        self.words(slice).len() + self.bytes(slice).len()
    }

    /// What of it the call takes.
    pub fn of(self, call: Call) -> Input<'a> {
        let taken = Slice::READ.into_iter().filter(|slice| call.takes(*slice));
        taken.fold(Input::default().under(self.limit), |input, slice| {
            input.with_words(slice, self.words(slice)).with_bytes(slice, self.bytes(slice))
        })
    }
}

/// How long the slices are that a call is lent.
#[derive(Clone, Copy, Default)]
pub struct Lengths([usize; SLICES]);

impl Lengths {
    /// A word buffer alone.
    pub fn of_words(words: usize) -> Lengths {
        Lengths::default().with(Slice::Words, words)
    }

    /// A byte buffer alone.
    pub fn of_file(file: usize) -> Lengths {
        Lengths::default().with(Slice::FileRoom, file)
    }

    /// A table buffer and a work buffer of these words.
    pub fn of_table(words: usize) -> Lengths {
        Lengths::of_words(words).with(Slice::Work, words)
    }

    /// The same with another length of one.
    pub fn with(mut self, slice: Slice, length: usize) -> Lengths {
        self.0[slice as usize] = length;
        self
    }

    pub fn of(&self, slice: Slice) -> usize {
        if slice.is_sized() {
            self.0[slice as usize]
        } else {
            slice.always()
        }
    }
}

/// Numbers of one size.
#[derive(Clone, Debug, PartialEq)]
pub enum Numbers {
    Words(Box<[i32]>),
    Bytes(Box<[u8]>),
    Counters(Box<[u32]>),
    Values(Box<[u64]>),
}

/// The same of the numbers of any size.
macro_rules! of_any_size {
    ($numbers:expr, $list:ident => $what:expr) => {
        match $numbers {
            Numbers::Words($list) => $what,
            Numbers::Bytes($list) => $what,
            Numbers::Counters($list) => $what,
            Numbers::Values($list) => $what,
        }
    };
}

/// A number that slices are made of.
pub trait Number: Copy + PartialEq {
    fn of(numbers: &Numbers) -> &[Self];
    fn of_mut(numbers: &mut Numbers) -> &mut [Self];
}

macro_rules! number {
    ($type:ty, $size:ident) => {
        impl Number for $type {
            fn of(numbers: &Numbers) -> &[$type] {
                match numbers {
                    Numbers::$size(list) => list,
                    _ => panic!("a slice of {}, but it is {numbers:?}", stringify!($type)),
                }
            }

            fn of_mut(numbers: &mut Numbers) -> &mut [$type] {
                match numbers {
                    Numbers::$size(list) => list,
                    _ => panic!("a slice of {}, but it is {numbers:?}", stringify!($type)),
                }
            }
        }
    };
}

number!(i32, Words);
number!(u8, Bytes);
number!(u32, Counters);
number!(u64, Values);

impl Numbers {
    /// So many numbers for a slice, each as made here and cut to its size.
    pub fn made(slice: Slice, length: usize, mut number: impl FnMut() -> u64) -> Numbers {
        let numbers = (0..length).map(|_| number());
        match slice {
            Slice::Jobs | Slice::Passes => Numbers::Counters(numbers.map(|number| number as u32).collect()),
            Slice::Value | Slice::Quote => Numbers::Values(numbers.collect()),
            _ if slice.is_bytes() => Numbers::Bytes(numbers.map(|number| number as u8).collect()),
            _ => Numbers::Words(numbers.map(|number| number as i32).collect()),
        }
    }

    fn len(&self) -> usize {
        of_any_size!(self, list => list.len())
    }

    /// The first place where it differs from numbers of the same size and length.
    fn differs_at(&self, other: &Numbers) -> Option<usize> {
        fn first<T: Number>(here: &[T], other: &Numbers) -> Option<usize> {
            here.iter().zip(T::of(other)).position(|(here, there)| here != there)
        }
        of_any_size!(self, list => first(list, other))
    }

    /// Sets the numbers of these places to this one, cut to their size.
    fn fill(&mut self, places: Range<usize>, number: u64) {
        of_any_size!(self, list => list[places].fill(number as _))
    }

    /// The numbers of these places added to a sum, one after the other.
    fn added(&self, places: Range<usize>, sum: u64, add: fn(u64, u64) -> u64) -> u64 {
        of_any_size!(self, list => list[places].iter().fold(sum, |sum, number| add(sum, *number as u64)))
    }
}

/// A slice that is lent: some places of a block, of which nobody may touch the others.
#[derive(Clone)]
struct Loan {
    slice: Slice,
    block: Numbers,
    places: Range<usize>,
}

/// What a call may write: the slices that it is lent, and no others.
#[derive(Clone)]
pub struct Lent(Vec<Loan>);

impl Lent {
    /// Every slice that any call is lent, each in a block as made here, of which so many numbers on both sides are not
    /// lent, but for the slices whose length is always the same.
    pub fn all(margin: usize, mut block: impl FnMut(Slice) -> Numbers) -> Lent {
        let loan = |slice: Slice| {
            let (block, margin) = (block(slice), if slice.is_sized() { margin } else { 0 });
            Loan { slice, places: margin..block.len() - margin, block }
        };
        Lent(Slice::ROOM.into_iter().chain(Slice::REPLY).map(loan).collect())
    }

    /// Those of them that the call takes.
    pub fn of(mut self, call: Call) -> Lent {
        self.0.retain(|loan| call.takes(loan.slice));
        self
    }

    /// Lends these lengths of the same blocks, and nothing on their other side.
    pub fn lend(&mut self, lengths: &Lengths) {
        self.0.iter_mut().for_each(|loan| loan.places = 0..lengths.of(loan.slice));
    }

    /// Some slices at once. One that is not lent is empty.
    pub fn several<T: Number, const N: usize>(&mut self, slices: [Slice; N]) -> [&mut [T]; N] {
        let mut found = slices.map(|_| <&mut [T]>::default());
        for loan in &mut self.0 {
            if let Some(place) = slices.iter().position(|slice| *slice == loan.slice) {
                found[place] = &mut T::of_mut(&mut loan.block)[loan.places.clone()];
            }
        }
        found
    }

    /// A slice, to be written.
    pub fn slice<T: Number>(&mut self, slice: Slice) -> &mut [T] {
        let [one] = self.several([slice]);
        one
    }

    /// A slice, to be read. One that is not lent is empty.
    pub fn read<T: Number>(&self, slice: Slice) -> &[T] {
        let loan = self.0.iter().find(|loan| loan.slice == slice);
        loan.map_or(&[], |loan| &T::of(&loan.block)[loan.places.clone()])
    }

    pub fn words(&mut self, slice: Slice) -> &mut [i32] {
        self.slice(slice)
    }

    pub fn bytes(&mut self, slice: Slice) -> &mut [u8] {
        self.slice(slice)
    }

    /// The value of a call that has one.
    pub fn value(&mut self) -> &mut u64 {
        &mut self.slice(Slice::Value)[0]
    }

    /// The quote, if it is lent.
    pub fn quote(&self) -> Option<Quote> {
        self.read::<u64>(Slice::Quote).try_into().ok().map(Quote::of)
    }

    pub fn put_quote(&mut self, quote: &Quote) {
        self.slice(Slice::Quote).copy_from_slice(&quote.values());
    }

    /// The desk, if it is lent.
    pub fn desk(&self) -> Option<Desk> {
        match (self.read::<u32>(Slice::Jobs), self.read::<u32>(Slice::Passes)) {
            (&[jobs], &[passes]) => Some(Desk { jobs, passes }),
            _ => None,
        }
    }

    pub fn put_desk(&mut self, desk: &Desk) {
        self.slice(Slice::Jobs).copy_from_slice(&[desk.jobs]);
        self.slice(Slice::Passes).copy_from_slice(&[desk.passes]);
    }

    /// What differs from another one of the same slices, margins and all, in words.
    pub fn difference(&self, other: &Lent) -> Option<String> {
        let differ = |(here, there): (&Loan, &Loan)| Some((here.slice, here.block.differs_at(&there.block)?));
        let (slice, place) = self.0.iter().zip(&other.0).find_map(differ)?;
        Some(format!("{slice:?} from place {place} on (margin and all)"))
    }

    /// Sets every number that is lent to this one, cut to its size; the desk stands.
    pub fn fill(&mut self, number: u64) {
        let others = self.0.iter_mut().filter(|loan| !loan.slice.is_desk());
        others.for_each(|loan| loan.block.fill(loan.places.clone(), number));
    }

    /// A sum over every number that is lent, without the desk.
    pub fn sum(&self, start: u64, add: fn(u64, u64) -> u64) -> u64 {
        let others = self.0.iter().filter(|loan| !loan.slice.is_desk());
        others.fold(start, |sum, loan| loan.block.added(loan.places.clone(), sum, add))
    }
}

/// What a call gave, and left in the memory that was lent to it.
pub struct Left {
    pub number: u32,
    pub after: Lent,
    pub before: Lent,
}

impl Left {
    /// The reply's value; 0 of a call that has none.
    pub fn value(&self) -> u64 {
        self.after.read(Slice::Value).first().copied().unwrap_or(0)
    }

    pub fn quote(&self) -> Quote {
        self.after.quote().unwrap_or_default()
    }

    pub fn desk(&self) -> Desk {
        self.after.desk().unwrap_or_default()
    }

    pub fn words(&self) -> &[i32] {
        self.after.read(Slice::Words)
    }

    /// What the words were before.
    pub fn old_words(&self) -> &[i32] {
        self.before.read(Slice::Words)
    }

    pub fn file(&self) -> &[u8] {
        self.after.read(Slice::FileRoom)
    }

    /// What the file's bytes were before.
    pub fn old_file(&self) -> &[u8] {
        self.before.read(Slice::FileRoom)
    }
}
