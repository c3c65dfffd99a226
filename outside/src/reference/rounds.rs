// Weights found in rounds: formulas 12 and 13 of Morabito and Pureza in fractions. A round is a call of
// the writer; the copies in its plan and its bound give the next weights.
use super::job::Job;
use super::plan::check;
use super::weights::capacity;
use super::writer::write_plan;
use crate::answers::{Found, PlanArrays, Refusal, Storage};

const MOST_ROUNDS: usize = 18;

/// A number that is not negative.
#[derive(Clone, Copy)]
struct Fraction {
    over: u128,
    under: u128,
}

pub fn find_weights(
    block: &[u8],
    choices: u32,
    kinds: &[u8],
    operands: &[u16],
    mut storage: Storage,
    mut plan: PlanArrays,
) -> Result<Found, Refusal> {
    let job = Job::read(block, choices)?;
    let lower = check(&job, kinds, operands)?.profit;
    let mut met: Vec<(u64, Vec<u8>)> = Vec::new();
    let mut next = Some(vec![0; job.kinds.len()]);
    while let Some(weights) = next {
        let written = match write_plan(block, choices, &weights, storage.again(), plan.again()) {
            Err(refusal) if met.is_empty() => return Err(refusal),
            Err(_) => break,
            Ok(written) => written,
        };
        let bound = written.bound.bound;
        let over = over_demands(&job, &plan, written.nodes as usize);
        next = next_weights(&job, met.len(), bound - lower, &over, &weights);
        met.push((bound, weights));
    }
    Ok(least(&met))
}

/// The first of the least bounds.
fn least(met: &[(u64, Vec<u8>)]) -> Found {
    let (bound, weights) = met.iter().min_by_key(|(bound, _)| bound).expect("round 0");
    let weight = |kind: usize| weights.get(kind).copied().unwrap_or(0).into();
    Found { bound: *bound, rounds: met.len() as u64, weights: std::array::from_fn(weight) }
}

/// For each kind the copies in the written plan less the demand.
fn over_demands(job: &Job, plan: &PlanArrays, nodes: usize) -> Vec<i64> {
    let mut over: Vec<i64> = job.kinds.iter().map(|kind| -(kind.demand as i64)).collect();
    for (kind, &operand) in plan.kinds.iter().zip(plan.operands.iter()).take(nodes) {
        if matches!(kind, 1 | 4) {
            over[usize::from(operand)] += 1;
        }
    }
    over
}

/// The weights of the round after this one; none where the run stops.
fn next_weights(job: &Job, round: usize, gap: u64, over: &[i64], weights: &[u8]) -> Option<Vec<u8>> {
    if over.iter().all(|&over| over <= 0) || round + 1 == MOST_ROUNDS {
        return None;
    }
    let squares = over.iter().map(|over| over * over).sum::<i64>() as u128;
    let quotient = Fraction { over: u128::from(gap), under: squares }.times(factor(round));
    let scale = quotient.or_one();
    let adjusted = |(&over, &weight): (&i64, &u8)| {
        let distance = Fraction { over: over.unsigned_abs().into(), under: 1 };
        let step = distance.times(scale).whole_root().min(255) as u8;
        if over > 0 {
            weight.saturating_add(step)
        } else {
            weight.saturating_sub(step)
        }
    };
    let next: Vec<u8> = over.iter().zip(weights).map(adjusted).collect();
    capacity(job, &next).is_ok().then_some(next)
}

/// 2 in the first three rounds, and half as much after every third.
fn factor(round: usize) -> Fraction {
    Fraction { over: 2, under: 1 << (round / 3) }
}

impl Fraction {
    fn times(self, other: Fraction) -> Fraction {
        Fraction { over: self.over * other.over, under: self.under * other.under }
    }

    /// The greater of 1 and this.
    fn or_one(self) -> Fraction {
        Fraction { over: self.over.max(self.under), under: self.under }
    }

    /// The whole part of the square root, which is that of the whole part's.
    fn whole_root(self) -> u128 {
        (self.over / self.under).isqrt()
    }
}
