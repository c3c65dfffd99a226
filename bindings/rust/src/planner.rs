//! A planner for one job: every call of planner.h with plans as types and storage that it lends itself.
//! Limits, weights, plans and jobs are taken as they are: the calls refuse what they do not accept.

use crate::answers::{
    Bound, BoundTwo, Certificate, Exact, Fitted, Found, Lagrangian, Passed, PlatesNeeded, Rack, Report,
    SawReport, StagedReport, Written,
};
use crate::job::{Choices, Job, TrueSizes};
use crate::rounds::{self, first_plan, FoundWeights};
use crate::slices;
use crate::storage::{written, Error, Lender};
use crate::tree::{Plan, Plate, Tree, TruePlan};

/// The shares of the greatest capacity, 4,095: no round needs a table of more.
const MOST_SHARES: u64 = 4_096;

/// A job and the storage for its calls.
///
/// ```
/// use planner::{Choices, Error, Job, Kind, Planner};
///
/// let kind = Kind { length: 2, width: 2, price: 5, demand: 1, grain: false };
/// let job = Job { length: 5, width: 3, kerf: 0, kinds: vec![kind] };
/// assert_eq!(Planner::new(&job, Choices::default(), 1 << 20).bound(&[0])?.bound, 10);
/// // A weight tells that one copy is enough, and needs a table of two shares.
/// let mut short = Planner::new(&job, Choices::default(), 8);
/// assert_eq!(short.bound(&[1]), Err(Error::Memory(12)));
/// # Ok::<(), Error>(())
/// ```
pub struct Planner {
    block: Vec<u8>,
    choices: u32,
    lender: Lender,
}

impl Planner {
    /// A planner for a job. The table takes no more than `memory` bytes.
    pub fn new(job: &Job, choices: Choices, memory: u64) -> Planner {
        Planner::of_block(job.block(choices), choices.word(), memory)
    }

    /// The same for a job block under a word of choices, whatever they hold.
    pub fn of_block(block: Vec<u8>, choices: u32, memory: u64) -> Planner {
        Planner { block, choices, lender: Lender::new(memory) }
    }

    /// Checks a plan.
    pub fn check(&self, plan: &Plan) -> Result<Report, Error> {
        Ok(slices::check_plan(&self.block, self.choices, &plan.kinds, &plan.operands)?)
    }

    /// Checks a plan block.
    pub fn check_block(&self, plan: &[u8]) -> Result<Report, Error> {
        Ok(slices::check_plan_block(&self.block, self.choices, plan)?)
    }

    /// Checks a plan against a limit on its stages.
    pub fn check_staged(&self, limit: u32, plan: &Plan) -> Result<StagedReport, Error> {
        let Plan { kinds, operands } = plan;
        Ok(slices::check_plan_staged(&self.block, self.choices, limit, kinds, operands)?)
    }

    /// Checks the trees of a rack, which share the demands, and gives what each earns. A refused node is
    /// counted through all of them; the sides of the job's own plate are not read.
    pub fn check_rack(&self, rack: &[Plate]) -> Result<Vec<u64>, Error> {
        let lengths: Vec<u16> = rack.iter().map(|plate| plate.length).collect();
        let widths: Vec<u16> = rack.iter().map(|plate| plate.width).collect();
        let mut profits = vec![0; rack.len()];
        let Plan { kinds, operands } = Plan::of_trees(rack.iter().map(|plate| &plate.tree));
        let lent = Rack { lengths: &lengths, widths: &widths, profits: &mut profits };
        slices::check_rack(&self.block, self.choices, lent, &kinds, &operands)?;
        Ok(profits)
    }

    /// Checks a plan as the saw does, which reads no price.
    pub fn check_at_saw(&self, plan: &Plan) -> Result<SawReport, Error> {
        Ok(slices::saw_check(&self.block, self.choices, &plan.kinds, &plan.operands)?)
    }

    /// The tree at a node of a plan, for the saw; none where the plan does not pass or has no such node.
    /// Nothing is refused but a choice without a meaning.
    pub fn tree_at_saw(&self, plan: &Plan, node: u64) -> Result<Option<Tree>, Error> {
        let Plan { kinds, operands } = plan;
        let part = Plan {
            kinds: slices::saw_kinds(&self.block, self.choices, kinds, operands, node)?.to_vec(),
            operands: slices::saw_operands(&self.block, self.choices, kinds, operands, node)?.to_vec(),
        };
        Ok(part.tree())
    }

    /// The neat plan of a plan.
    pub fn neat(&self, plan: &Plan) -> Result<Plan, Error> {
        let ((), neat) = written(|arrays| {
            slices::neat_plan(&self.block, self.choices, &plan.kinds, &plan.operands, arrays)
                .map(|neat| ((), neat.nodes))
        })?;
        Ok(neat)
    }

    /// Checks that the job is a model that stands for true sizes: what no plan of the job within the demands
    /// exceeds, no plan at those sizes exceeds.
    pub fn check_model(&self, sizes: &TrueSizes) -> Result<Passed, Error> {
        Ok(slices::check_model(&self.block, self.choices, &sizes.block())?)
    }

    /// The neat plan of a plan at true sizes, and what it uses of the true plate.
    pub fn true_plan(&self, sizes: &TrueSizes, plan: &Plan) -> Result<(Fitted, TruePlan), Error> {
        let Plan { kinds, operands } = plan;
        Ok(written(|arrays| {
            slices::true_plan(&self.block, self.choices, &sizes.block(), kinds, operands, arrays)
                .map(|fitted| (fitted, fitted.nodes))
        })?)
    }

    /// How many plates the whole order needs, beside others whose plans earn no more than `other` in all.
    pub fn plates_needed(&mut self, weights: &[u8], other: u64) -> Result<PlatesNeeded, Error> {
        self.lender.lend(|storage| slices::plates_needed(&self.block, self.choices, weights, other, storage))
    }

    /// The bound with multipliers in place of demands.
    pub fn bound_lagrangian(&mut self, weights: &[u8], multipliers: &[u32]) -> Result<Lagrangian, Error> {
        self.lender.lend(|storage| {
            slices::bound_lagrangian(&self.block, self.choices, weights, multipliers, storage)
        })
    }

    /// The bound under these weights.
    pub fn bound(&mut self, weights: &[u8]) -> Result<Bound, Error> {
        self.lender.lend(|storage| slices::bound(&self.block, self.choices, weights, storage))
    }

    /// The bound within a limit on the stages.
    pub fn bound_staged(&mut self, weights: &[u8], limit: u32) -> Result<Bound, Error> {
        self.lender.lend(|storage| slices::bound_staged(&self.block, self.choices, weights, limit, storage))
    }

    /// The bound under two weights a kind.
    pub fn bound_two(&mut self, first: &[u8], second: &[u8]) -> Result<BoundTwo, Error> {
        self.lender.lend(|storage| slices::bound_two(&self.block, self.choices, first, second, storage))
    }

    /// The bound and the plan behind it, which may exceed demands.
    pub fn write_plan(&mut self, weights: &[u8]) -> Result<(Bound, Plan), Error> {
        self.lender.lend(|storage| {
            written(|arrays| {
                slices::write_plan(&self.block, self.choices, weights, storage, arrays)
                    .map(|Written { bound, nodes }| (bound, nodes))
            })
        })
    }

    /// The optimum of a short order and a plan that earns it.
    pub fn exact(&mut self) -> Result<(Exact, Plan), Error> {
        self.lender.lend(|storage| {
            written(|arrays| {
                slices::exact(&self.block, self.choices, storage, arrays).map(|exact| (exact, exact.nodes))
            })
        })
    }

    /// Certifies a plan under these weights.
    pub fn certify(&mut self, weights: &[u8], plan: &Plan) -> Result<Certificate, Error> {
        let Plan { kinds, operands } = plan;
        self.lender
            .lend(|storage| slices::certify(&self.block, self.choices, weights, kinds, operands, storage))
    }

    /// Certifies a plan within a limit on the stages.
    pub fn certify_staged(&mut self, weights: &[u8], limit: u32, plan: &Plan) -> Result<Certificate, Error> {
        let Plan { kinds, operands } = plan;
        self.lender.lend(|storage| {
            slices::certify_staged(&self.block, self.choices, weights, limit, kinds, operands, storage)
        })
    }

    /// Finds weights in rounds, from the profit of a plan, and says why there were no more rounds. The table is lent for
    /// the greatest capacity, or as much of it as the memory allows.
    pub fn find_weights(&mut self, plan: &Plan) -> Result<FoundWeights, Error> {
        let lower = self.check(plan)?.profit;
        let (found, last) = self.lender.lend_spare(MOST_SHARES, |storage| {
            written(|arrays| {
                let Plan { kinds, operands } = plan;
                let nodes = arrays.kinds.len() as u64;
                slices::find_weights(&self.block, self.choices, kinds, operands, storage, arrays)
                    .map(|found| (found, nodes))
            })
        })?;
        let ended = rounds::ended(self, &found, &first_plan(last), lower)?;
        let Found { bound, rounds, weights } = found;
        let number_of_kinds = usize::from(self.block[4]);
        let weights = weights[..number_of_kinds].iter().map(|&weight| weight as u8).collect();
        Ok(FoundWeights { bound, rounds, weights, ended })
    }

    /// The job block and the word of choices.
    pub(crate) fn input(&self) -> (&[u8], u32) {
        (&self.block, self.choices)
    }
}
