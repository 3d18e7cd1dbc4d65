//! How soon the comparison finds a wrong call beside decide and check.

use second::c_calls::exports::Call;
use second::c_calls::slices::{Input, Lent};
use second::held::compare::{Comparison, Tested};
use second::reference::host;

pub type Answer = fn(Call, &Input, &mut Lent) -> u32;

/// How many random models were compared until the mistake was found; None if it was not.
pub fn found_after(answer: Answer, models: u64) -> Option<u64> {
    let mut comparison = Comparison::new(Tested { decide: host::decide, check: host::check, answer }, 11);
    (1..=models).find(|_| comparison.random_case(6).is_err())
}

/// A mistake must be found within 2,000 random models.
pub fn must_be_found(name: &str, answer: Answer) {
    let found = found_after(answer, 2_000);
    println!("{name}: found with model {found:?}");
    assert!(found.is_some(), "not found: {name}");
}
