// The C baseline of the folder bench/, on slices.
// It trusts its caller, so every call is unsafe.
use crate::answers::{
    Bound, BoundTwo, Exact, Found, Lagrangian, PlanArrays, PlatesNeeded, Storage, Words, Written, FOUND_WORDS,
};

extern "C" {
    fn baseline_bound(
        job: *const u8,
        choices: u32,
        weights: *const u8,
        lengths: *mut u16,
        widths: *mut u16,
        table: *mut u64,
        answer: *mut u64,
    );

    fn baseline_write_plan(
        job: *const u8,
        choices: u32,
        weights: *const u8,
        lengths: *mut u16,
        widths: *mut u16,
        table: *mut u64,
        kinds: *mut u8,
        operands: *mut u16,
        answer: *mut u64,
    );

    fn baseline_bound_staged(
        job: *const u8,
        choices: u32,
        weights: *const u8,
        limit: u32,
        lengths: *mut u16,
        widths: *mut u16,
        table: *mut u64,
        answer: *mut u64,
    );

    fn baseline_bound_two(
        job: *const u8,
        choices: u32,
        first: *const u8,
        second: *const u8,
        lengths: *mut u16,
        widths: *mut u16,
        table: *mut u64,
        answer: *mut u64,
    );

    fn baseline_exact(
        job: *const u8,
        choices: u32,
        lengths: *mut u16,
        widths: *mut u16,
        table: *mut u64,
        kinds: *mut u8,
        operands: *mut u16,
        answer: *mut u64,
    );

    fn baseline_plates_needed(
        job: *const u8,
        choices: u32,
        weights: *const u8,
        other: u64,
        lengths: *mut u16,
        widths: *mut u16,
        table: *mut u64,
        answer: *mut u64,
    );

    fn baseline_bound_lagrangian(
        job: *const u8,
        choices: u32,
        weights: *const u8,
        multipliers: *const u32,
        lengths: *mut u16,
        widths: *mut u16,
        table: *mut u64,
        answer: *mut u64,
    );

    fn baseline_find_weights(
        job: *const u8,
        choices: u32,
        lower: u64,
        lengths: *mut u16,
        widths: *mut u16,
        table: *mut u64,
        words: usize,
        kinds: *mut u8,
        operands: *mut u16,
        answer: *mut u64,
    );
}

/// # Safety
/// The planner accepts the job and the weights, and the storage is enough for them.
pub unsafe fn bound(job: &[u8], choices: u32, weights: &[u8], storage: Storage) -> Bound {
    let mut answer = [0; 4];
    // SAFETY: as the caller promises.
    unsafe {
        baseline_bound(
            job.as_ptr(),
            choices,
            weights.as_ptr(),
            storage.lengths.as_mut_ptr(),
            storage.widths.as_mut_ptr(),
            storage.table.as_mut_ptr(),
            answer.as_mut_ptr(),
        )
    };
    Bound::from_words(answer)
}

/// # Safety
/// As for `bound`.
pub unsafe fn plates_needed(
    job: &[u8],
    choices: u32,
    weights: &[u8],
    other: u64,
    storage: Storage,
) -> PlatesNeeded {
    let mut answer = [0; 3];
    // SAFETY: as the caller promises.
    unsafe {
        baseline_plates_needed(
            job.as_ptr(),
            choices,
            weights.as_ptr(),
            other,
            storage.lengths.as_mut_ptr(),
            storage.widths.as_mut_ptr(),
            storage.table.as_mut_ptr(),
            answer.as_mut_ptr(),
        )
    };
    PlatesNeeded::from_words(answer)
}

/// # Safety
/// As for `bound`, with a multiplier that is accepted for each kind.
pub unsafe fn bound_lagrangian(
    job: &[u8],
    choices: u32,
    weights: &[u8],
    multipliers: &[u32],
    storage: Storage,
) -> Lagrangian {
    let mut answer = [0; 5];
    // SAFETY: as the caller promises.
    unsafe {
        baseline_bound_lagrangian(
            job.as_ptr(),
            choices,
            weights.as_ptr(),
            multipliers.as_ptr(),
            storage.lengths.as_mut_ptr(),
            storage.widths.as_mut_ptr(),
            storage.table.as_mut_ptr(),
            answer.as_mut_ptr(),
        )
    };
    Lagrangian::from_words(answer)
}

/// # Safety
/// As for `bound`; the plan arrays hold the plan or 4,095 nodes.
pub unsafe fn write_plan(
    job: &[u8],
    choices: u32,
    weights: &[u8],
    storage: Storage,
    plan: PlanArrays,
) -> Written {
    let mut answer = [0; 5];
    // SAFETY: as the caller promises.
    unsafe {
        baseline_write_plan(
            job.as_ptr(),
            choices,
            weights.as_ptr(),
            storage.lengths.as_mut_ptr(),
            storage.widths.as_mut_ptr(),
            storage.table.as_mut_ptr(),
            plan.kinds.as_mut_ptr(),
            plan.operands.as_mut_ptr(),
            answer.as_mut_ptr(),
        )
    };
    Written::from_words(answer)
}

/// # Safety
/// As for `bound`, with storage for the staged table; the limit is of 1 to 8.
pub unsafe fn bound_staged(job: &[u8], choices: u32, weights: &[u8], limit: u32, storage: Storage) -> Bound {
    let mut answer = [0; 4];
    // SAFETY: as the caller promises.
    unsafe {
        baseline_bound_staged(
            job.as_ptr(),
            choices,
            weights.as_ptr(),
            limit,
            storage.lengths.as_mut_ptr(),
            storage.widths.as_mut_ptr(),
            storage.table.as_mut_ptr(),
            answer.as_mut_ptr(),
        )
    };
    Bound::from_words(answer)
}

/// # Safety
/// As for `bound`, with weights of both sorts and storage for the table of pairs.
pub unsafe fn bound_two(job: &[u8], choices: u32, first: &[u8], second: &[u8], storage: Storage) -> BoundTwo {
    let mut answer = [0; 5];
    // SAFETY: as the caller promises.
    unsafe {
        baseline_bound_two(
            job.as_ptr(),
            choices,
            first.as_ptr(),
            second.as_ptr(),
            storage.lengths.as_mut_ptr(),
            storage.widths.as_mut_ptr(),
            storage.table.as_mut_ptr(),
            answer.as_mut_ptr(),
        )
    };
    BoundTwo::from_words(answer)
}

/// # Safety
/// The planner accepts the job, the storage is enough for all states, and the plan arrays hold the plan
/// or 4,095 nodes.
pub unsafe fn exact(job: &[u8], choices: u32, storage: Storage, plan: PlanArrays) -> Exact {
    let mut answer = [0; 5];
    // SAFETY: as the caller promises.
    unsafe {
        baseline_exact(
            job.as_ptr(),
            choices,
            storage.lengths.as_mut_ptr(),
            storage.widths.as_mut_ptr(),
            storage.table.as_mut_ptr(),
            plan.kinds.as_mut_ptr(),
            plan.operands.as_mut_ptr(),
            answer.as_mut_ptr(),
        )
    };
    Exact::from_words(answer)
}

/// # Safety
/// The planner accepts the job, storage and table are enough for its weights of 0, and the plan arrays
/// hold 4,095 nodes, the plan of those weights among them; some plan earns the lower figure.
pub unsafe fn find_weights(
    job: &[u8],
    choices: u32,
    lower: u64,
    storage: Storage,
    plan: PlanArrays,
) -> Found {
    let mut answer = [0; FOUND_WORDS];
    // SAFETY: as the caller promises.
    unsafe {
        baseline_find_weights(
            job.as_ptr(),
            choices,
            lower,
            storage.lengths.as_mut_ptr(),
            storage.widths.as_mut_ptr(),
            storage.table.as_mut_ptr(),
            storage.table.len(),
            plan.kinds.as_mut_ptr(),
            plan.operands.as_mut_ptr(),
            answer.as_mut_ptr(),
        )
    };
    Found::from_words(answer)
}
