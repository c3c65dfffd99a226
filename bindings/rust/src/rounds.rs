//! Why a run of rounds for weights ended. The call says how many rounds it ran; where that and its last plan leave the
//! reason open, the rounds are run once more, one writing call each, up to the one that did not come.

use crate::answers::Found;
use crate::job::{Choices, Job};
use crate::planner::Planner;
use crate::storage::Error;
use crate::tree::Plan;
use crate::words::Reason;

/// The most rounds of a run.
const MOST_ROUNDS: u64 = 18;

/// Rounds after which the factor of the steps is halved.
const FACTOR_ROUNDS: u32 = 3;

/// The greatest weight, and the greatest step.
const MOST_WEIGHT: u64 = 255;

/// Why a run of rounds ended.
#[derive(Clone, Copy, Debug, PartialEq, Eq)]
#[non_exhaustive]
pub enum Ended {
    /// The last round's plan keeps every demand.
    Demands,
    /// All 18 rounds were run.
    Rounds,
    /// The next round's capacity would be above 4,095.
    Capacity,
    /// The next round needs so many words of table, and fewer may be lent: more memory may give a lower bound.
    Memory(u64),
    /// The plan of the next round needs so many nodes, more than a plan has.
    Nodes(u64),
}

/// Weights that were found.
#[derive(Clone, Debug, PartialEq, Eq)]
pub struct FoundWeights {
    /// The least bound that the rounds met: no plan within the demands earns more.
    pub bound: u64,
    /// How many rounds were run.
    pub rounds: u64,
    /// The weights that first gave the bound, one a kind.
    pub weights: Vec<u8>,
    /// Why there were no more rounds.
    pub ended: Ended,
}

/// A round's weights, bound and copies less demands, from which the next weights follow.
struct Round {
    number: u32,
    weights: Vec<u8>,
    gap: u64,
    over: Vec<i64>,
}

impl Round {
    /// The weights of the next round: each is raised or lowered by the root of its distance times the scale.
    fn next(&self) -> Vec<u8> {
        let squares = self.over.iter().map(|over| u128::from(over.unsigned_abs()).pow(2)).sum::<u128>();
        let under = squares << (self.number / FACTOR_ROUNDS);
        let over = (2 * u128::from(self.gap)).max(under);
        let next = |(distance, weight): (&i64, &u8)| {
            let root = (u128::from(distance.unsigned_abs()) * over / under).isqrt();
            let step = root.min(MOST_WEIGHT.into()) as u8;
            if *distance > 0 {
                weight.saturating_add(step)
            } else {
                weight.saturating_sub(step)
            }
        };
        self.over.iter().zip(&self.weights).map(next).collect()
    }
}

/// For each kind the copies in a plan less the demand.
fn over_demands(job: &Job, plan: &Plan) -> Vec<i64> {
    let mut over: Vec<i64> = job.kinds.iter().map(|kind| -i64::from(kind.demand)).collect();
    for (kind, operand) in plan.kinds.iter().zip(&plan.operands) {
        if matches!(kind, 1 | 4) {
            over[usize::from(*operand)] += 1;
        }
    }
    over
}

/// The plan at the beginning of arrays, up to where its tree ends.
pub fn first_plan(mut plan: Plan) -> Plan {
    let mut wanted = 1usize;
    let nodes = plan.kinds.iter().take_while(|kind| {
        let more = wanted > 0;
        wanted = wanted.saturating_sub(1) + if matches!(kind, 2 | 3) { 2 } else { 0 };
        more
    });
    let nodes = nodes.count();
    plan.kinds.truncate(nodes);
    plan.operands.truncate(nodes);
    plan
}

/// Why a run ended that found this, whose last round wrote this plan, from the lower figure of a plan.
pub fn ended(planner: &mut Planner, found: &Found, last: &Plan, lower: u64) -> Result<Ended, Error> {
    let (block, choices) = planner.input();
    let job = Job::from_block(block, Choices::from_word(choices)).expect("a job that a call has read");
    if over_demands(&job, last).iter().all(|over| *over <= 0) {
        return Ok(Ended::Demands);
    }
    if found.rounds == MOST_ROUNDS {
        return Ok(Ended::Rounds);
    }
    let mut weights = vec![0; job.kinds.len()];
    for number in 0..found.rounds as u32 {
        let (bound, plan) = planner.write_plan(&weights)?;
        let round = Round { number, weights, gap: bound.bound - lower, over: over_demands(&job, &plan) };
        weights = round.next();
    }
    match planner.write_plan(&weights).expect_err("a round that ends the run") {
        Error::Memory(words) => Ok(Ended::Memory(words)),
        Error::Refused(refusal) if refusal.reason() == Reason::PlanRoom => Ok(Ended::Nodes(refusal.place)),
        Error::Refused(refusal) if refusal.reason() == Reason::Capacity => Ok(Ended::Capacity),
        other => Err(other),
    }
}
