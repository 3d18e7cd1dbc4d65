//! The desk: two counters that move only on an answered call.

use crate::reference::analysis::{ask_buffers, run, Answer};
use crate::reference::model::Plant;
use crate::reference::Refusal;

#[derive(Clone, Copy, Debug, Default, PartialEq, Eq)]
pub struct Desk {
    pub jobs: u32,
    pub passes: u32,
}

/// An analysis that also takes the desk; question 22 after 21.
pub fn desk_call(
    desk: &mut Desk,
    model: &[i32],
    limit: u32,
    table: &mut [i32],
    work: &mut [i32],
) -> Result<(Answer, u32), Refusal> {
    let plant = Plant::from_words(model)?;
    ask_buffers(&plant, table, work)?;
    let most = u32::MAX as u64;
    if desk.jobs as u64 + 1 > most || desk.passes as u64 + limit as u64 > most {
        return Err(22);
    }
    let (answer, k) = run(&plant, limit, table, work);
    desk.jobs += 1;
    desk.passes += k;
    Ok((answer, k))
}
