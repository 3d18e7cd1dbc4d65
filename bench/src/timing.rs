//! Two calls timed in turns, so that both meet the same state of the machine.

use std::time::Instant;

/// A round lasts about this long for each of the two, and a pair about this long in all.
const ROUND_SECONDS: f64 = 0.002;
const PAIR_SECONDS: f64 = 0.5;
const MOST_ROUNDS: usize = 101;
const FEWEST_ROUNDS: usize = 9;

/// Microseconds for one call.
pub struct Times {
    pub best: f64,
    pub median: f64,
}

pub struct Pair {
    pub host: Times,
    pub other: Times,
}

/// Seconds for one of `turns` calls.
fn seconds(turns: usize, call: &mut impl FnMut()) -> f64 {
    let begin = Instant::now();
    for _ in 0..turns {
        call();
    }
    begin.elapsed().as_secs_f64() / turns as f64
}

fn times(mut rounds: Vec<f64>) -> Times {
    rounds.sort_by(f64::total_cmp);
    Times { best: rounds[0] * 1e6, median: rounds[rounds.len() / 2] * 1e6 }
}

/// Rounds of both calls in turns; which of them comes first changes from round to round.
pub fn pair(mut host: impl FnMut(), mut other: impl FnMut()) -> Pair {
    let one = seconds(1, &mut host).max(seconds(1, &mut other)).max(1e-7);
    let turns = ((ROUND_SECONDS / one) as usize).max(1);
    let rounds = ((PAIR_SECONDS / (2.0 * turns as f64 * one)) as usize).clamp(FEWEST_ROUNDS, MOST_ROUNDS);
    let (mut of_host, mut of_other) = (Vec::new(), Vec::new());
    for round in 0..rounds {
        if round % 2 == 0 {
            of_host.push(seconds(turns, &mut host));
            of_other.push(seconds(turns, &mut other));
        } else {
            of_other.push(seconds(turns, &mut other));
            of_host.push(seconds(turns, &mut host));
        }
    }
    Pair { host: times(of_host), other: times(of_other) }
}
