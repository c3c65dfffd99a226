// The bound with multipliers in place of demands: refusals 37 and 38. The prices are lowered by them, and
// what the demanded copies may earn more by is added again.
use super::bound::tabled;
use super::job::Job;
use super::refuse_if;
use super::weights::capacity;
use crate::answers::{Lagrangian, Refusal, Storage};

pub fn bound_lagrangian(
    block: &[u8],
    choices: u32,
    weights: &[u8],
    multipliers: &[u32],
    storage: Storage,
) -> Result<Lagrangian, Refusal> {
    let mut job = Job::read(block, choices)?;
    let capacity = capacity(&job, weights)?;
    refuse_if(multipliers.len() != job.kinds.len(), 37, 0)?;
    for (i, &multiplier) in multipliers.iter().enumerate() {
        refuse_if(multiplier > 1_000_000, 38, i)?;
    }
    let mut added = 0;
    for (kind, &multiplier) in job.kinds.iter_mut().zip(multipliers) {
        let multiplier = u64::from(multiplier);
        kind.price = kind.price.saturating_sub(multiplier);
        added += kind.demand * multiplier;
    }
    let lowered = tabled(&job, weights, capacity, storage)?.bound;
    Ok(Lagrangian { bound: lowered.bound + added, lowered })
}
