// How many plates a whole order needs: so many times the bound must reach what is left of its worth.
use super::bound::bound;
use super::job::{Job, Kind};
use crate::answers::{PlatesNeeded, Refusal, Storage};

pub fn plates_needed(
    job: &[u8],
    choices: u32,
    weights: &[u8],
    other: u64,
    storage: Storage,
) -> Result<PlatesNeeded, Refusal> {
    let bound = bound(job, choices, weights, storage)?.bound;
    let price = |kind: &Kind| kind.demand * kind.price;
    let worth: u64 = Job::read(job, choices)?.kinds.iter().map(price).sum();
    let plates = match (worth.saturating_sub(other), bound) {
        (0, _) => 0,
        (_, 0) => u64::MAX,
        (left, bound) => left.div_ceil(bound),
    };
    Ok(PlatesNeeded { plates, bound, worth })
}
