// One call on one input with fresh memory, and the same call on two implementations, with the new
// block and the old one.
use crate::lent::{Lent, Sizes};
use outside::answers::{FOUND_WORDS, FULL_DEMAND, OLD_BLOCK, REPORT_WORDS, STAGED_REPORT_WORDS, TURNING};
use outside::blocks::plan_block;
use outside::calls::{Calls, PROVED};
use outside::reference;

#[derive(Clone, Copy, Debug, PartialEq, Eq, PartialOrd, Ord)]
pub enum Call {
    CheckPlan,
    CheckPlanBlock,
    Bound,
    WritePlan,
    NeatPlan,
    Certify,
    CheckPlanStaged,
    BoundStaged,
    CertifyStaged,
    BoundTwo,
    Exact,
    FindWeights,
    CheckModel,
    TruePlan,
    PlatesNeeded,
    BoundLagrangian,
}

pub const ALL_CALLS: [Call; 16] = [
    Call::CheckPlan,
    Call::CheckPlanBlock,
    Call::Bound,
    Call::WritePlan,
    Call::NeatPlan,
    Call::Certify,
    Call::CheckPlanStaged,
    Call::BoundStaged,
    Call::CertifyStaged,
    Call::BoundTwo,
    Call::Exact,
    Call::FindWeights,
    Call::CheckModel,
    Call::TruePlan,
    Call::PlatesNeeded,
    Call::BoundLagrangian,
];

/// The calls that take one weight a kind and no limit.
pub const WEIGHING_CALLS: [Call; 5] =
    [Call::Bound, Call::WritePlan, Call::Certify, Call::PlatesNeeded, Call::BoundLagrangian];

/// The calls that take a limit.
pub const STAGED_CALLS: [Call; 3] = [Call::CheckPlanStaged, Call::BoundStaged, Call::CertifyStaged];

/// Every word of choices that has a meaning with the new block.
pub const ALL_CHOICES: [u32; 4] = [0, TURNING, FULL_DEMAND, TURNING | FULL_DEMAND];

/// What a call reads. The plan stands as arrays and as a block.
#[derive(Clone, Debug, Default)]
pub struct Input {
    pub job: Vec<u8>,
    pub choices: u32,
    pub weights: Vec<u8>,
    pub second: Vec<u8>,
    pub limit: u32,
    pub kinds: Vec<u8>,
    pub operands: Vec<u16>,
    pub plan: Vec<u8>,
    pub sizes: Vec<u8>,
    pub other: u64,
    pub multipliers: Vec<u32>,
}

impl Input {
    pub fn with(self, choices: u32) -> Input {
        Input { choices, ..self }
    }

    pub fn within(self, limit: u32) -> Input {
        Input { limit, ..self }
    }

    /// The same input with these second weights.
    pub fn and(self, second: &[u8]) -> Input {
        Input { second: second.to_vec(), ..self }
    }

    /// The same input at these true sizes.
    pub fn at(self, sizes: Vec<u8>) -> Input {
        Input { sizes, ..self }
    }

    /// The same input with these multipliers.
    pub fn lowered(self, multipliers: &[u32]) -> Input {
        Input { multipliers: multipliers.to_vec(), ..self }
    }

    /// The same input beside plates that earn so much.
    pub fn beside(self, other: u64) -> Input {
        Input { other, ..self }
    }

    /// This input; and where it is a new block with kerf 0, the same as an old block.
    pub fn block_forms(&self) -> Vec<Input> {
        let mut forms = vec![self.clone()];
        if self.choices & OLD_BLOCK == 0 && self.job.get(6..8) == Some(&[0, 0]) {
            let mut old = self.clone().with(self.choices | OLD_BLOCK);
            old.job.drain(6..8);
            forms.push(old);
        }
        forms
    }

    /// The same input with the plan that a call has written.
    pub fn with_written_plan(&self, lent: &Lent) -> Input {
        self.with_nodes(lent.answer.words()[4], lent)
    }

    /// The same input with the neat plan that a call has written.
    pub fn with_neat_plan(&self, lent: &Lent) -> Input {
        self.with_nodes(lent.answer.words()[0], lent)
    }

    fn with_nodes(&self, nodes: u64, lent: &Lent) -> Input {
        let nodes = nodes as usize;
        let kinds = lent.kinds.words()[..nodes].to_vec();
        let operands = lent.operands.words()[..nodes].to_vec();
        Input { plan: plan_block(&kinds, &operands), kinds, operands, ..self.clone() }
    }
}

/// The implementations that must pass every example.
pub const IMPLEMENTATIONS: [Calls; 2] = [reference::calls::CALLS, PROVED];

impl Call {
    /// The words of its answer.
    pub fn answer_words(self) -> usize {
        match self {
            Call::CheckPlan | Call::CheckPlanBlock => REPORT_WORDS,
            Call::CheckPlanStaged => STAGED_REPORT_WORDS,
            Call::Bound | Call::BoundStaged => 4,
            Call::WritePlan | Call::BoundTwo | Call::Exact => 5,
            Call::NeatPlan | Call::CheckModel => 1,
            Call::Certify | Call::CertifyStaged | Call::TruePlan | Call::PlatesNeeded => 3,
            Call::BoundLagrangian => 5,
            Call::FindWeights => FOUND_WORDS,
        }
    }

    pub fn run(self, calls: &Calls, input: &Input, lent: &mut Lent) -> u32 {
        let Input { job, weights, kinds, operands, plan: block, sizes, .. } = input;
        let (c, limit) = (input.choices, input.limit);
        if self == Call::TruePlan {
            let (plan, answer) = lent.split_true();
            return (calls.true_plan)(job, c, sizes, kinds, operands, plan, answer);
        }
        let (storage, plan, answer) = lent.split();
        match self {
            Call::TruePlan => unreachable!("it was run"),
            Call::CheckModel => (calls.check_model)(job, c, sizes, answer),
            Call::PlatesNeeded => (calls.plates_needed)(job, c, weights, input.other, storage, answer),
            Call::BoundLagrangian => {
                (calls.bound_lagrangian)(job, c, weights, &input.multipliers, storage, answer)
            }
            Call::CheckPlan => (calls.check_plan)(job, c, kinds, operands, answer),
            Call::CheckPlanBlock => (calls.check_plan_block)(job, c, block, answer),
            Call::Bound => (calls.bound)(job, c, weights, storage, answer),
            Call::WritePlan => (calls.write_plan)(job, c, weights, storage, plan, answer),
            Call::NeatPlan => (calls.neat_plan)(job, c, kinds, operands, plan, answer),
            Call::Certify => (calls.certify)(job, c, weights, kinds, operands, storage, answer),
            Call::CheckPlanStaged => (calls.check_plan_staged)(job, c, limit, kinds, operands, answer),
            Call::BoundStaged => (calls.bound_staged)(job, c, weights, limit, storage, answer),
            Call::CertifyStaged => {
                (calls.certify_staged)(job, c, weights, limit, kinds, operands, storage, answer)
            }
            Call::BoundTwo => (calls.bound_two)(job, c, weights, &input.second, storage, answer),
            Call::Exact => (calls.exact)(job, c, storage, plan, answer),
            Call::FindWeights => (calls.find_weights)(job, c, kinds, operands, storage, plan, answer),
        }
    }
}

/// Runs a call on both implementations and compares code and memory; gives both back. With kerf 0 the
/// proved call must do the same on the old block.
pub fn compare(call: Call, input: &Input, sizes: Sizes) -> (u32, Lent) {
    let [reference, proved] = IMPLEMENTATIONS;
    let mut expected = Lent::new(sizes);
    let code = call.run(&reference, input, &mut expected);
    for form in input.block_forms() {
        let mut lent = Lent::new(sizes);
        let given = call.run(&proved, &form, &mut lent);
        let differences = expected.differences(&lent);
        assert!(
            given == code && differences.is_empty(),
            "{call:?} answers {given} and not {code}, memory differs in {differences:?}\n\
             {form:?}\n{sizes:?}",
        );
    }
    if code == 0 && matches!(call, Call::CheckPlan | Call::CheckPlanBlock | Call::CheckPlanStaged) {
        areas_make_up_the_plate(&input.job, expected.answer.words());
    }
    (code, expected)
}

/// Expects pieces, waste, trim and sawdust of a report to sum to the plate.
pub fn areas_make_up_the_plate(job: &[u8], report: &[u64]) {
    let side = |at| u64::from(u16::from_le_bytes([job[at], job[at + 1]]));
    assert_eq!(report[1] + report[2] + report[3] + report[68], side(0) * side(2), "{report:?}");
}
