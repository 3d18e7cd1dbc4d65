//! Delays to a wall by document 01's rule, the delays that all variables can live with (document 02, T-06),
//! and touching a box.
//!
//! Touching is here twice. `touches` collects every delay at which a condition
//! can turn from false to true or back, and tries each of them; it is the one
//! that the checker, the analysis, decide and check use. `touches_quick` works
//! out the one delay that all conditions wait for and tries that; it serves the
//! speed baseline (`analysis::run_quick`). Neither intersects intervals.

use crate::reference::fraction::Fraction;
use crate::reference::model::MAX_BOX;

/// The latest end of an interval of delays.
#[derive(Clone, Copy, Debug)]
pub enum End {
    At(Fraction),
    Endless,
}

/// An interval of delays, both ends included.
#[derive(Clone, Copy, Debug)]
pub struct Delays {
    pub earliest: Fraction,
    pub latest: End,
}

impl Delays {
    /// All delays there are.
    pub const ALL: Delays = Delays { earliest: Fraction::ZERO, latest: End::Endless };

    fn from(&mut self, earliest: Fraction) {
        if self.earliest.below(earliest) {
            self.earliest = earliest;
        }
    }

    fn until(&mut self, latest: Fraction) {
        match self.latest {
            End::At(held) if !latest.below(held) => {}
            _ => self.latest = End::At(latest),
        }
    }

    fn not_empty(self) -> Option<Delays> {
        match self.latest {
            End::At(latest) if latest.below(self.earliest) => None,
            _ => Some(self),
        }
    }

    /// The delays that are in both; None if there is none.
    #[inline]
    pub fn cut_to(mut self, other: Delays) -> Option<Delays> {
        self.from(other.earliest);
        if let End::At(latest) = other.latest {
            self.until(latest);
        }
        self.not_empty()
    }
}

/// The delays from part [p, q] with rate [a, c] to wall value b; None if there is none.
#[inline]
pub fn delays(p: i64, q: i64, a: i64, c: i64, b: i64) -> Option<Delays> {
    if (b < p && a >= 0) || (b > q && c <= 0) {
        return None;
    }
    let earliest = if b < p {
        Fraction::new(p - b, -a)
    } else if b > q {
        Fraction::new(b - q, c)
    } else {
        Fraction::ZERO
    };
    let endless = (a <= 0 && 0 <= c) || (b < p && c >= 0) || (b > q && a <= 0);
    let latest = if endless {
        End::Endless
    } else if c < 0 {
        End::At(Fraction::new(q - b, -c))
    } else {
        End::At(Fraction::new(b - p, a))
    };
    Some(Delays { earliest, latest })
}

/// The delays after which every variable can be inside the invariant: p + a·t ≤ high and q + c·t ≥ low for
/// each of them. None if there is none.
#[inline]
pub fn delays_inside(part: &[i32], rates: &[i32], invariant: &[i32]) -> Option<Delays> {
    let mut inside = Delays::ALL;
    for i in (0..invariant.len()).step_by(2) {
        // room + slope·t ≥ 0 for both conditions
        let high = (invariant[i + 1] as i64 - part[i] as i64, -(rates[i] as i64));
        let low = (part[i + 1] as i64 - invariant[i] as i64, rates[i + 1] as i64);
        for (room, slope) in [high, low] {
            if room < 0 && slope <= 0 {
                return None;
            }
            if slope < 0 {
                inside.until(Fraction::new(room, -slope));
            } else if room < 0 {
                inside.from(Fraction::new(-room, slope));
            }
        }
    }
    inside.not_empty()
}

/// A box cut to the invariant; None if the cut is empty.
#[inline]
pub fn cut(n: usize, bounds: &[i32], invariant: &[i32]) -> Option<[i64; MAX_BOX]> {
    let mut both = [0i64; MAX_BOX];
    for i in 0..n {
        let low = bounds[2 * i].max(invariant[2 * i]);
        let high = bounds[2 * i + 1].min(invariant[2 * i + 1]);
        if low > high {
            return None;
        }
        both[2 * i] = low as i64;
        both[2 * i + 1] = high as i64;
    }
    Some(both)
}

/// At delay t = num/den, every variable has p + a·t ≤ high and q + c·t ≥ low of the box.
#[inline]
fn meets_at(part: &[i64], rates: &[i64], bounds: &[i64], t: Fraction) -> bool {
    (0..part.len() / 2).all(|i| {
        part[2 * i] * t.den + rates[2 * i] * t.num <= bounds[2 * i + 1] * t.den
            && part[2 * i + 1] * t.den + rates[2 * i + 1] * t.num >= bounds[2 * i] * t.den
    })
}

/// Some rational t ≥ 0 meets all conditions at once.
///
/// Each condition is linear in t and not strict, so the set of good t is closed and
/// convex. If it is not empty it has a least member: 0, or a t at which one
/// condition holds with equality. So it is enough to try those.
pub fn some_delay_meets(part: &[i64], rates: &[i64], bounds: &[i64]) -> bool {
    if meets_at(part, rates, bounds, Fraction::ZERO) {
        return true;
    }
    for i in 0..part.len() / 2 {
        // p + a·t = high, and q + c·t = low
        let equalities =
            [(bounds[2 * i + 1] - part[2 * i], rates[2 * i]), (bounds[2 * i] - part[2 * i + 1], rates[2 * i + 1])];
        for (way, rate) in equalities {
            if rate == 0 {
                continue;
            }
            let t = if rate > 0 { Fraction::new(way, rate) } else { Fraction::new(-way, -rate) };
            if t.num >= 0 && meets_at(part, rates, bounds, t) {
                return true;
            }
        }
    }
    false
}

fn widen(words: &[i32]) -> [i64; MAX_BOX] {
    let mut wide = [0i64; MAX_BOX];
    for (to, &from) in wide.iter_mut().zip(words) {
        *to = from as i64;
    }
    wide
}

/// The part touches the box (cut to the invariant), trying every possible delay.
pub fn touches(n: usize, part: &[i32], rates: &[i32], invariant: &[i32], bounds: &[i32]) -> bool {
    let Some(both) = cut(n, bounds, invariant) else {
        return false;
    };
    let two_n = 2 * n;
    some_delay_meets(&widen(part)[..two_n], &widen(rates)[..two_n], &both[..two_n])
}

/// The same answer with one trial: the greatest delay that any condition waits for.
pub fn touches_quick(n: usize, part: &[i32], rates: &[i32], invariant: &[i32], bounds: &[i32]) -> bool {
    let Some(both) = cut(n, bounds, invariant) else {
        return false;
    };
    let mut t = Fraction::ZERO;
    for i in 0..n {
        let above = part[2 * i] as i64 - both[2 * i + 1];
        if above > 0 {
            let fall = -(rates[2 * i] as i64);
            if fall <= 0 {
                return false;
            }
            let wait = Fraction { num: above, den: fall };
            if t.below(wait) {
                t = wait;
            }
        }
        let beneath = both[2 * i] - part[2 * i + 1] as i64;
        if beneath > 0 {
            let rise = rates[2 * i + 1] as i64;
            if rise <= 0 {
                return false;
            }
            let wait = Fraction { num: beneath, den: rise };
            if t.below(wait) {
                t = wait;
            }
        }
    }
    (0..n).all(|i| {
        part[2 * i] as i64 * t.den + rates[2 * i] as i64 * t.num <= both[2 * i + 1] * t.den
            && part[2 * i + 1] as i64 * t.den + rates[2 * i + 1] as i64 * t.num >= both[2 * i] * t.den
    })
}
