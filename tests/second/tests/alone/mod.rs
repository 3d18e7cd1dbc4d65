//! Calls that nothing is compared with: what holds of them, holds by themselves.

use second::c_calls::exports::Call;
use second::c_calls::slices::{Input, Left, Lengths, Lent, Numbers, Slice};
use second::held::compare::Difference;
use second::held::pairing::HostCalls;
use second::held::writing::Calls;
use second::inputs::random::Random;
use second::reference::quote::Quote;

pub struct Alone {
    pub answer: fn(Call, &Input, &mut Lent) -> u32,
    pub random: Random,
}

impl Calls for Alone {
    fn make(&mut self, call: Call, input: &Input, lengths: &Lengths) -> Result<Left, Difference> {
        let random = &mut self.random;
        let before = Lent::all(0, |slice| match slice {
            Slice::Words | Slice::FileRoom => Numbers::made(slice, lengths.of(slice), || random.next()),
            Slice::Jobs | Slice::Passes => Numbers::made(slice, lengths.of(slice), || 0),
            _ => Numbers::made(slice, lengths.of(slice), || 7),
        });
        let before = before.of(call);
        let mut after = before.clone();
        let number = (self.answer)(call, input, &mut after);
        Ok(Left { number, after, before })
    }
}

impl Alone {
    /// A model's words out of its file, or the number that refuses it; and its quote.
    fn read(&mut self, model: &[u8]) -> Result<Result<(Vec<i32>, Quote), u32>, Difference> {
        let most = Lengths::of_words(model.len());
        let read = self.make(Call::ReadModel, &Input::of_file(model), &most)?;
        if read.number != 100 {
            return Ok(Err(read.number));
        }
        let words = read.words()[..read.value() as usize].to_vec();
        let quoted = self.make(Call::Quote, &Input::of_model(&words), &Lengths::default())?;
        Ok(Ok((words, quoted.quote())))
    }
}

/// The host's two by the calls on words, so that a mistake in one of these is in them too.
impl HostCalls for Alone {
    fn decide_file(&mut self, model: &[u8], room: usize, limit: u32) -> Result<(u64, Vec<u8>), Difference> {
        let (words, quote) = match self.read(model)? {
            Ok(read) => read,
            Err(number) => return Ok(((number as u64) << 32, vec![0; room])),
        };
        let lengths = Lengths::of_table(quote.words as usize).with(Slice::FileRoom, room);
        let input = Input::of_model(&words).under(limit);
        let found = self.make(Call::Analyse, &input, &lengths)?;
        let written = self.make(Call::WriteTable, &input.with_table(found.words()), &lengths)?;
        Ok(((found.number as u64) << 32 | found.value(), written.file().to_vec()))
    }

    fn check_file(&mut self, model: &[u8], table: &[u8]) -> Result<u64, Difference> {
        let (words, quote) = match self.read(model)? {
            Ok(read) => read,
            Err(number) => return Ok(number as u64),
        };
        let lengths = Lengths::of_words(quote.words as usize);
        let input = Input::of_model(&words).with_file(table);
        let read = self.make(Call::ReadTable, &input, &lengths)?;
        if read.number != 100 {
            return Ok(read.number as u64);
        }
        let checked = self.make(Call::Check, &input.with_table(read.words()), &lengths)?;
        Ok(checked.number as u64)
    }
}
