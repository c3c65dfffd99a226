// The certificate: job, weights, plan, then storage; refusals 1 to 20, 26 and 27.
// The gap is the bound less the checked profit.
use super::bound::tabled;
use super::job::Job;
use super::plan::check;
use super::weights::capacity;
use crate::answers::{Certificate, Refusal, Storage};

pub fn certify(
    job: &[u8],
    choices: u32,
    weights: &[u8],
    kinds: &[u8],
    operands: &[u16],
    storage: Storage,
) -> Result<Certificate, Refusal> {
    let job = Job::read(job, choices)?;
    let capacity = capacity(&job, weights)?;
    let profit = check(&job, kinds, operands)?.profit;
    let bound = tabled(&job, weights, capacity, storage)?.bound.bound;
    let gap = bound.checked_sub(profit).expect("no plan within the demands is above the bound");
    Ok(Certificate { gap, bound, profit })
}
