//! Compares every call of libhost.a with the second implementation.
//!
//!     HOST_LIB_DIR=<directory of libhost.a> \
//!         cargo run --release --offline --features host --bin compare [models] [damaged] [seed]
//!
//! Exit status: 0 no difference; 1 a difference, printed with its input, or a number that a call cannot
//! give; 2 some number that a call can give, or some kind of input, came up never or too seldom under
//! the full counts; 3 built without the library (then only `--dry` runs: the second implementation
//! against itself).
//!
//! `--trace` prints every input to standard error before the tested call, for a program that stops
//! within one. `--tight` lends buffers that end where their heap block ends, for a run under a
//! memory checker, and leaves out the models of thousands of passes. `--random-only` leaves the
//! fixed cases out. `--all-numbers` wants every number of every call under fewer counts too.

use second::c_calls::host_ffi;
use second::held::changes::{Changes, STEP_KINDS};
use second::held::compare::{Comparison, Tested};
use second::held::coverage::{Counts, Tally};

const MODELS: u64 = 20_000;
const DAMAGED: u64 = 100_000;
const SEED: u64 = 0x01_9912;

fn listed(tally: &Tally) -> String {
    tally.iter().map(|(kind, count)| format!("{kind} {count}")).collect::<Vec<_>>().join("; ")
}

fn print_changes(changes: &Changes) {
    println!(
        "other than before T-06 ({} took too long then): {} random models, with another answer {} ({}), \
         fewer passes {}, more passes {}, another table {}",
        changes.not_compared,
        changes.models,
        changes.answer,
        listed(&changes.answers),
        changes.fewer_passes,
        changes.more_passes,
        changes.table
    );
    println!(
        "  tables accepted before and still {}, {} of them wider than the answer's; refused by 33 before and accepted {}",
        changes.still_accepted, changes.wider, changes.newly_accepted
    );
    let steps = STEP_KINDS.iter().zip(changes.steps).map(|(kind, count)| format!("{kind} {count}"));
    println!("  delays of wall steps {}", steps.collect::<Vec<_>>().join("; "));
}

fn print_models(counts: &Counts) {
    println!("fixed cases compared: {}", counts.fixed);
    println!(
        "random models compared: {} (by n: {:?}; with cuts: {:?}; with reset ranges: {:?})",
        counts.models,
        &counts.by_n[1..],
        &counts.cut_by_n[1..],
        &counts.ranged_by_n[1..]
    );
    println!("  with {}", listed(&counts.model_kinds));
    println!("  start boxes {}; compared trimmed too {}", listed(&counts.start_kinds), counts.trimmed);
    println!(
        "  {}; compared in both editions {}, refused in edition 1 {}, tables checked with narrower ranges {}",
        listed(&counts.range_kinds),
        counts.both_editions,
        counts.refused_editions,
        counts.narrowed
    );
    println!("  under limits {}", listed(&counts.limits));
    println!("  most passes of an answer: {}", counts.most_passes);
}

fn print_calls(counts: &Counts) {
    println!("damaged inputs compared: {} of decide and check, {} of the others", counts.damaged, counts.damaged_calls);
    println!("  {}", listed(&counts.damage));
    println!("decide gave {:?}", counts.decide);
    println!("check gave {:?}", counts.check);
    for (call, numbers) in &counts.calls {
        println!("{} gave {numbers:?}", call.name());
    }
    println!(
        "their slices by length: {} kinds, each at least {} times",
        counts.lengths.len(),
        counts.lengths.values().min().unwrap_or(&0)
    );
    println!("lists of desk calls: {}, with {}", counts.desk_lists, listed(&counts.desks));
}

fn print_runs(counts: &Counts) {
    let (safe, unknown) = (&counts.safe_runs, &counts.unknown_runs);
    println!(
        "runs of safe models: {}, with {} delays and {} switches; of {} configurations {} forbidden, {} unreached",
        safe.runs, safe.delays, safe.switches, safe.configurations, safe.forbidden, safe.unreached
    );
    println!(
        "  switches of them to a level strictly inside a reset range {}, to a fraction {}",
        safe.inside_ranges, safe.fractions
    );
    println!(
        "runs of unknown models: {}; of {} configurations {} forbidden",
        unknown.runs, unknown.configurations, unknown.forbidden
    );
}

fn print_counts(counts: &Counts) {
    print_models(counts);
    print_calls(counts);
    println!("extremes: {}", listed(&counts.extremes));
    println!("quotes held to answers: {}", listed(&counts.quotes));
    println!("models written and read again: {}", listed(&counts.written));
    println!("plants held to narrower ones: {}", listed(&counts.pairs));
    println!("  narrower by {}; not analysed, as it takes too long: {}", listed(&counts.ways), counts.long_pairs);
    println!("plants held to ones with further cuts: {}", listed(&counts.finer));
    println!(
        "tables accepted of {} safe answers, {} tables refused for models answered unknown",
        counts.accepted, counts.refused
    );
    print_changes(&counts.changes);
    print_runs(counts);
}

fn main() {
    let mut arguments: Vec<String> = std::env::args().skip(1).collect();
    let dry = arguments.iter().any(|a| a == "--dry");
    let trace = arguments.iter().any(|a| a == "--trace");
    let tight = arguments.iter().any(|a| a == "--tight");
    let random_only = arguments.iter().any(|a| a == "--random-only");
    let all_numbers = arguments.iter().any(|a| a == "--all-numbers");
    arguments.retain(|a| !a.starts_with("--"));
    let number = |place: usize, usual: u64| match arguments.get(place) {
        Some(text) => text.parse().unwrap_or_else(|_| panic!("not a number: {text}")),
        None => usual,
    };
    let (models, damaged, seed) = (number(0, MODELS), number(1, DAMAGED), number(2, SEED));
    if !host_ffi::LINKED {
        println!("built without the feature `host`: nothing under test is linked in");
        if !dry {
            std::process::exit(3);
        }
        println!("dry run: the second implementation against itself");
    }
    println!("seed {seed}, {models} random models, {damaged} damaged inputs");

    let tested = Tested { decide: host_ffi::decide, check: host_ffi::check, answer: host_ffi::answer };
    let mut comparison = Comparison::new(tested, seed);
    comparison.trace = trace;
    comparison.tight = tight;
    let outcome = if random_only { comparison.random_cases(models, damaged) } else { comparison.all(models, damaged) };
    let counts = &comparison.counts;
    print_counts(counts);
    if let Err(difference) = outcome {
        println!("DIFFERENCE\n{difference:?}");
        std::process::exit(1);
    }
    let not_due = counts.numbers_not_due();
    if !not_due.is_empty() {
        println!("DIFFERENCE\nnumbers that a call cannot give: {}", not_due.join(", "));
        std::process::exit(1);
    }
    let full = models >= MODELS && damaged >= DAMAGED;
    let numbers = counts.numbers_not_seen();
    let mut missing = [numbers.clone(), counts.kinds_not_seen()].concat();
    if full {
        missing.extend(counts.too_seldom());
    }
    if missing.is_empty() {
        println!("every number of every call and every kind of input came up");
    } else {
        println!("did not come up, or not often enough: {}", missing.join(", "));
        if full || (all_numbers && !numbers.is_empty()) {
            std::process::exit(2);
        }
    }
    println!("no difference");
}
