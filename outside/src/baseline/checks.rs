// The checks, neat plans and certificates of the C baseline, on slices: they refuse as planner.h says, and
// answer its words.
// Plan arrays are of one length; the job block is the new one.
use crate::answers::{
    PlanArrays, Rack, Storage, TruePlanArrays, REPORT_WORDS, SAW_WORDS, STAGED_REPORT_WORDS,
};

extern "C" {
    fn baseline_check_plan(
        job: *const u8,
        bytes: usize,
        choices: u32,
        kinds: *const u8,
        operands: *const u16,
        nodes: usize,
        answer: *mut u64,
    ) -> u32;

    fn baseline_check_plan_block(
        job: *const u8,
        bytes: usize,
        choices: u32,
        plan: *const u8,
        plan_bytes: usize,
        answer: *mut u64,
    ) -> u32;

    fn baseline_check_plan_staged(
        job: *const u8,
        bytes: usize,
        choices: u32,
        limit: u32,
        kinds: *const u8,
        operands: *const u16,
        nodes: usize,
        answer: *mut u64,
    ) -> u32;

    fn baseline_saw_check(
        job: *const u8,
        bytes: usize,
        choices: u32,
        kinds: *const u8,
        operands: *const u16,
        nodes: usize,
        answer: *mut u64,
    ) -> u32;

    fn baseline_saw_part(
        job: *const u8,
        bytes: usize,
        choices: u32,
        kinds: *const u8,
        operands: *const u16,
        nodes: usize,
        node: u64,
        answer: *mut u64,
    ) -> u32;

    fn baseline_check_rack(
        job: *const u8,
        bytes: usize,
        choices: u32,
        lengths: *const u16,
        widths: *const u16,
        plates: usize,
        profits: *mut u64,
        kinds: *const u8,
        operands: *const u16,
        nodes: usize,
        answer: *mut u64,
    ) -> u32;

    fn baseline_neat_plan(
        job: *const u8,
        bytes: usize,
        choices: u32,
        kinds: *const u8,
        operands: *const u16,
        nodes: usize,
        neat_kinds: *mut u8,
        neat_operands: *mut u16,
        room: usize,
        answer: *mut u64,
    ) -> u32;

    fn baseline_check_model(
        job: *const u8,
        bytes: usize,
        choices: u32,
        sizes: *const u8,
        answer: *mut u64,
    ) -> u32;

    fn baseline_true_plan(
        job: *const u8,
        bytes: usize,
        choices: u32,
        sizes: *const u8,
        kinds: *const u8,
        operands: *const u16,
        nodes: usize,
        true_kinds: *mut u8,
        positions: *mut u32,
        answer: *mut u64,
    ) -> u32;

    fn baseline_certify(
        job: *const u8,
        bytes: usize,
        choices: u32,
        weights: *const u8,
        kinds: *const u8,
        operands: *const u16,
        nodes: usize,
        lengths: *mut u16,
        widths: *mut u16,
        table: *mut u64,
        answer: *mut u64,
    ) -> u32;

    fn baseline_certify_staged(
        job: *const u8,
        bytes: usize,
        choices: u32,
        weights: *const u8,
        limit: u32,
        kinds: *const u8,
        operands: *const u16,
        nodes: usize,
        lengths: *mut u16,
        widths: *mut u16,
        table: *mut u64,
        answer: *mut u64,
    ) -> u32;
}

/// The nodes of both arrays; the answer must have room for these words.
fn nodes(kinds: &[u8], operands: &[u16], answer: &[u64], words: usize) -> usize {
    assert!(kinds.len() == operands.len() && answer.len() >= words);
    kinds.len()
}

pub fn check_plan(job: &[u8], choices: u32, kinds: &[u8], operands: &[u16], answer: &mut [u64]) -> u32 {
    let nodes = nodes(kinds, operands, answer, REPORT_WORDS);
    // SAFETY: the lengths are those of the slices, and the answer has room.
    unsafe {
        baseline_check_plan(
            job.as_ptr(),
            job.len(),
            choices,
            kinds.as_ptr(),
            operands.as_ptr(),
            nodes,
            answer.as_mut_ptr(),
        )
    }
}

pub fn check_plan_block(job: &[u8], choices: u32, plan: &[u8], answer: &mut [u64]) -> u32 {
    assert!(answer.len() >= REPORT_WORDS);
    // SAFETY: the lengths are those of the slices, and the answer has room.
    unsafe {
        baseline_check_plan_block(
            job.as_ptr(),
            job.len(),
            choices,
            plan.as_ptr(),
            plan.len(),
            answer.as_mut_ptr(),
        )
    }
}

pub fn check_plan_staged(
    job: &[u8],
    choices: u32,
    limit: u32,
    kinds: &[u8],
    operands: &[u16],
    answer: &mut [u64],
) -> u32 {
    let nodes = nodes(kinds, operands, answer, STAGED_REPORT_WORDS);
    // SAFETY: the lengths are those of the slices, and the answer has room.
    unsafe {
        baseline_check_plan_staged(
            job.as_ptr(),
            job.len(),
            choices,
            limit,
            kinds.as_ptr(),
            operands.as_ptr(),
            nodes,
            answer.as_mut_ptr(),
        )
    }
}

pub fn saw_check(job: &[u8], choices: u32, kinds: &[u8], operands: &[u16], answer: &mut [u64]) -> u32 {
    let nodes = nodes(kinds, operands, answer, SAW_WORDS);
    // SAFETY: the lengths are those of the slices, and the answer has room.
    unsafe {
        baseline_saw_check(
            job.as_ptr(),
            job.len(),
            choices,
            kinds.as_ptr(),
            operands.as_ptr(),
            nodes,
            answer.as_mut_ptr(),
        )
    }
}

/// The part of either array that belongs to a node.
pub fn saw_part(
    job: &[u8],
    choices: u32,
    kinds: &[u8],
    operands: &[u16],
    node: u64,
    answer: &mut [u64],
) -> u32 {
    let nodes = nodes(kinds, operands, answer, 2);
    // SAFETY: the lengths are those of the slices, and the answer has room.
    unsafe {
        baseline_saw_part(
            job.as_ptr(),
            job.len(),
            choices,
            kinds.as_ptr(),
            operands.as_ptr(),
            nodes,
            node,
            answer.as_mut_ptr(),
        )
    }
}

pub fn check_rack(
    job: &[u8],
    choices: u32,
    rack: Rack,
    kinds: &[u8],
    operands: &[u16],
    answer: &mut [u64],
) -> u32 {
    let nodes = nodes(kinds, operands, answer, 1);
    let Rack { lengths, widths, profits } = rack;
    assert!(lengths.len() == widths.len() && lengths.len() == profits.len());
    // SAFETY: the lengths are those of the slices, and the answer has room.
    unsafe {
        baseline_check_rack(
            job.as_ptr(),
            job.len(),
            choices,
            lengths.as_ptr(),
            widths.as_ptr(),
            lengths.len(),
            profits.as_mut_ptr(),
            kinds.as_ptr(),
            operands.as_ptr(),
            nodes,
            answer.as_mut_ptr(),
        )
    }
}

pub fn neat_plan(
    job: &[u8],
    choices: u32,
    kinds: &[u8],
    operands: &[u16],
    neat: PlanArrays,
    answer: &mut [u64],
) -> u32 {
    let nodes = nodes(kinds, operands, answer, 1);
    let room = neat.kinds.len().min(neat.operands.len());
    // SAFETY: the lengths are those of the slices, and the answer has room.
    unsafe {
        baseline_neat_plan(
            job.as_ptr(),
            job.len(),
            choices,
            kinds.as_ptr(),
            operands.as_ptr(),
            nodes,
            neat.kinds.as_mut_ptr(),
            neat.operands.as_mut_ptr(),
            room,
            answer.as_mut_ptr(),
        )
    }
}

/// # Safety
/// The planner accepts the sizes for the job.
pub unsafe fn check_model(job: &[u8], choices: u32, sizes: &[u8], answer: &mut [u64]) -> u32 {
    assert!(!answer.is_empty());
    // SAFETY: as the caller promises.
    unsafe { baseline_check_model(job.as_ptr(), job.len(), choices, sizes.as_ptr(), answer.as_mut_ptr()) }
}

/// # Safety
/// The planner accepts the sizes for the job, and the plan, where it passes, fits the true plate and the
/// arrays.
pub unsafe fn true_plan(
    job: &[u8],
    choices: u32,
    sizes: &[u8],
    kinds: &[u8],
    operands: &[u16],
    plan: TruePlanArrays,
    answer: &mut [u64],
) -> u32 {
    let nodes = nodes(kinds, operands, answer, 3);
    // SAFETY: as the caller promises.
    unsafe {
        baseline_true_plan(
            job.as_ptr(),
            job.len(),
            choices,
            sizes.as_ptr(),
            kinds.as_ptr(),
            operands.as_ptr(),
            nodes,
            plan.kinds.as_mut_ptr(),
            plan.operands.as_mut_ptr(),
            answer.as_mut_ptr(),
        )
    }
}

/// # Safety
/// Where the plan passes, the planner accepts the job and the weights, and the storage is enough for them.
pub unsafe fn certify(
    job: &[u8],
    choices: u32,
    weights: &[u8],
    kinds: &[u8],
    operands: &[u16],
    storage: Storage,
    answer: &mut [u64],
) -> u32 {
    let nodes = nodes(kinds, operands, answer, 3);
    // SAFETY: as the caller promises.
    unsafe {
        baseline_certify(
            job.as_ptr(),
            job.len(),
            choices,
            weights.as_ptr(),
            kinds.as_ptr(),
            operands.as_ptr(),
            nodes,
            storage.lengths.as_mut_ptr(),
            storage.widths.as_mut_ptr(),
            storage.table.as_mut_ptr(),
            answer.as_mut_ptr(),
        )
    }
}

/// # Safety
/// As for `certify`, with storage for the staged table.
#[allow(clippy::too_many_arguments)]
pub unsafe fn certify_staged(
    job: &[u8],
    choices: u32,
    weights: &[u8],
    limit: u32,
    kinds: &[u8],
    operands: &[u16],
    storage: Storage,
    answer: &mut [u64],
) -> u32 {
    let nodes = nodes(kinds, operands, answer, 3);
    // SAFETY: as the caller promises.
    unsafe {
        baseline_certify_staged(
            job.as_ptr(),
            job.len(),
            choices,
            weights.as_ptr(),
            limit,
            kinds.as_ptr(),
            operands.as_ptr(),
            nodes,
            storage.lengths.as_mut_ptr(),
            storage.widths.as_mut_ptr(),
            storage.table.as_mut_ptr(),
            answer.as_mut_ptr(),
        )
    }
}
