//! Wall step, switch step, and joining a box to a face.

use crate::reference::delays::{delays, delays_inside, Delays, End};
use crate::reference::fraction::{down, up};
use crate::reference::model::{Switch, MAX_BOX};

/// Wall step to (d, b): the box after the delays to the wall that all variables can live with, rounded
/// outward, then cut to the invariant. False (and nothing meant by `out`) if there is no delay or the cut is
/// empty.
pub fn wall_step(
    n: usize,
    part: &[i32],
    rates: &[i32],
    invariant: &[i32],
    d: usize,
    b: i32,
    out: &mut [i32; MAX_BOX],
) -> bool {
    delays_inside(part, rates, &invariant[..2 * n])
        .is_some_and(|inside| wall_step_within(n, part, rates, invariant, (d, b), inside, out))
}

/// The same of no delays but these.
#[inline]
pub fn wall_step_within(
    n: usize,
    part: &[i32],
    rates: &[i32],
    invariant: &[i32],
    (d, b): (usize, i32),
    inside: Delays,
    out: &mut [i32; MAX_BOX],
) -> bool {
    let (part, rates, invariant) = (&part[..2 * n], &rates[..2 * n], &invariant[..2 * n]);
    let to_wall =
        delays(part[2 * d] as i64, part[2 * d + 1] as i64, rates[2 * d] as i64, rates[2 * d + 1] as i64, b as i64);
    let Some(times) = to_wall.and_then(|times| times.cut_to(inside)) else {
        return false;
    };
    for i in 0..n {
        let room = (invariant[2 * i] as i64, invariant[2 * i + 1] as i64);
        let (low, high) = if i == d {
            (b as i64, b as i64)
        } else {
            let range = (part[2 * i] as i64, part[2 * i + 1] as i64);
            after(range, (rates[2 * i] as i64, rates[2 * i + 1] as i64), &times, room)
        };
        let (low, high) = (low.max(room.0), high.min(room.1));
        if low > high {
            return false;
        }
        out[2 * i] = low as i32;
        out[2 * i + 1] = high as i32;
    }
    true
}

/// Low and high of a variable after the delays, rounded outward; an end of its room where an endless latest
/// delay leaves it unbounded.
#[inline(always)]
fn after((p, q): (i64, i64), (a, c): (i64, i64), times: &Delays, room: (i64, i64)) -> (i64, i64) {
    let first = times.earliest;
    let low = if a < 0 {
        match times.latest {
            End::At(last) => down(p * last.den + a * last.num, last.den),
            End::Endless => room.0,
        }
    } else {
        down(p * first.den + a * first.num, first.den)
    };
    let high = if c > 0 {
        match times.latest {
            End::At(last) => up(q * last.den + c * last.num, last.den),
            End::Endless => room.1,
        }
    } else {
        up(q * first.den + c * first.num, first.den)
    };
    (low, high)
}

/// Switch step from the box of the source's face; the landed box in `out`, or false. A masked variable is set to
/// its whole reset range.
#[inline]
pub fn switch_step(
    n: usize,
    face: &[i32],
    switch: &Switch,
    target_invariant: &[i32],
    out: &mut [i32; MAX_BOX],
) -> bool {
    for i in 0..n {
        let mut low = face[2 * i].max(switch.guard[2 * i]);
        let mut high = face[2 * i + 1].min(switch.guard[2 * i + 1]);
        if low > high {
            return false;
        }
        if switch.masked(i) {
            low = switch.reset[2 * i];
            high = switch.reset[2 * i + 1];
        }
        low = low.max(switch.reset[2 * i]).max(target_invariant[2 * i]);
        high = high.min(switch.reset[2 * i + 1]).min(target_invariant[2 * i + 1]);
        if low > high {
            return false;
        }
        out[2 * i] = low;
        out[2 * i + 1] = high;
    }
    true
}

/// Joins a box to a face (flag, then bounds): the smallest box holding both.
/// True if the face changed.
#[inline]
pub fn join(face: &mut [i32], bounds: &[i32]) -> bool {
    if face[0] == 0 {
        face[0] = 1;
        face[1..].copy_from_slice(bounds);
        return true;
    }
    let mut changed = false;
    for (held, new) in face[1..].chunks_exact_mut(2).zip(bounds.chunks_exact(2)) {
        if new[0] < held[0] {
            held[0] = new[0];
            changed = true;
        }
        if new[1] > held[1] {
            held[1] = new[1];
            changed = true;
        }
    }
    changed
}
