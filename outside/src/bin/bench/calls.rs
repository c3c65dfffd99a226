// The calls that are measured, and who makes them: ours, the baseline in C and, for two of them, the one in
// Rust. Before a baseline runs on a job, the proved call has accepted job and memory.
use crate::jobs::Job;
use crate::memory::Memory;
use outside::answers::Words;
use outside::baseline::{c, checks, rust};
use outside::slices::calls as ours;

/// Makes a call and gives the refusal's number, 0 for none; the answer stands in the memory.
pub type Run = fn(&Job, &mut Memory) -> u32;

pub struct Call {
    pub name: &'static str,
    pub ours: Run,
    pub c: Run,
    pub rust: Option<Run>,
    /// The table has so many times the words of the first refusal.
    pub tables: usize,
}

/// A call with a baseline in C alone.
const fn call(name: &'static str, ours: Run, c: Run) -> Call {
    Call { name, ours, c, rust: None, tables: 1 }
}

pub static BOUND: Call = Call {
    rust: Some(|job, memory| {
        let bound = rust::bound(&job.block, job.choices, &job.weights, memory.split().0);
        memory.put(bound.to_words());
        0
    }),
    ..call(
        "bound",
        |job, memory| {
            let (storage, _, answer) = memory.split();
            ours::bound(&job.block, job.choices, &job.weights, storage, answer)
        },
        |job, memory| {
            let storage = memory.split().0;
            // SAFETY: the proved call has accepted job and memory.
            let bound = unsafe { c::bound(&job.block, job.choices, &job.weights, storage) };
            memory.put(bound.to_words());
            0
        },
    )
};

pub static PLAN: Call = Call {
    rust: Some(|job, memory| {
        let (storage, plan, _) = memory.split();
        let written = rust::write_plan(&job.block, job.choices, &job.weights, storage, plan);
        memory.put(written.to_words());
        0
    }),
    ..call(
        "plan",
        |job, memory| {
            let (storage, plan, answer) = memory.split();
            ours::write_plan(&job.block, job.choices, &job.weights, storage, plan, answer)
        },
        |job, memory| {
            let (storage, plan, _) = memory.split();
            // SAFETY: the proved call has accepted job and memory.
            let written = unsafe { c::write_plan(&job.block, job.choices, &job.weights, storage, plan) };
            memory.put(written.to_words());
            0
        },
    )
};

pub static STAGED: Call = call(
    "staged bound",
    |Job { block, choices, weights, limit, .. }, memory| {
        let (storage, _, answer) = memory.split();
        ours::bound_staged(block, *choices, weights, *limit, storage, answer)
    },
    |Job { block, choices, weights, limit, .. }, memory| {
        let storage = memory.split().0;
        // SAFETY: the proved call has accepted job and memory.
        let bound = unsafe { c::bound_staged(block, *choices, weights, *limit, storage) };
        memory.put(bound.to_words());
        0
    },
);

pub static TWO_WEIGHTS: Call = call(
    "bound of two",
    |Job { block, choices, weights, second, .. }, memory| {
        let (storage, _, answer) = memory.split();
        ours::bound_two(block, *choices, weights, second, storage, answer)
    },
    |Job { block, choices, weights, second, .. }, memory| {
        let storage = memory.split().0;
        // SAFETY: the proved call has accepted job and memory.
        let bound = unsafe { c::bound_two(block, *choices, weights, second, storage) };
        memory.put(bound.to_words());
        0
    },
);

pub static EXACT: Call = call(
    "exact",
    |job, memory| {
        let (storage, plan, answer) = memory.split();
        ours::exact(&job.block, job.choices, storage, plan, answer)
    },
    |job, memory| {
        let (storage, plan, _) = memory.split();
        // SAFETY: the proved call has accepted job and memory.
        let exact = unsafe { c::exact(&job.block, job.choices, storage, plan) };
        memory.put(exact.to_words());
        0
    },
);

/// The lower figure is 0: a waste node is lent. The first refusal tells the words for one share.
pub static ROUNDS: Call = Call {
    tables: 1024,
    ..call(
        "weights",
        |job, memory| {
            let (storage, plan, answer) = memory.split();
            ours::find_weights(&job.block, job.choices, &[0], &[0], storage, plan, answer)
        },
        |job, memory| {
            let (storage, plan, _) = memory.split();
            // SAFETY: the proved call has accepted job and memory.
            let found = unsafe { c::find_weights(&job.block, job.choices, 0, storage, plan) };
            memory.put(found.to_words());
            0
        },
    )
};

pub static CERTIFICATE: Call = call(
    "certificate",
    |Job { block, choices, weights, kinds, operands, .. }, memory| {
        let (storage, _, answer) = memory.split();
        ours::certify(block, *choices, weights, kinds, operands, storage, answer)
    },
    |Job { block, choices, weights, kinds, operands, .. }, memory| {
        let (storage, _, answer) = memory.split();
        // SAFETY: the proved call has accepted job and memory.
        unsafe { checks::certify(block, *choices, weights, kinds, operands, storage, answer) }
    },
);

pub static STAGED_CERTIFICATE: Call = call(
    "staged certificate",
    |Job { block, choices, weights, limit, kinds, operands, .. }, memory| {
        let (storage, _, answer) = memory.split();
        ours::certify_staged(block, *choices, weights, *limit, kinds, operands, storage, answer)
    },
    |Job { block, choices, weights, limit, kinds, operands, .. }, memory| {
        let (storage, _, answer) = memory.split();
        // SAFETY: the proved call has accepted job and memory.
        unsafe { checks::certify_staged(block, *choices, weights, *limit, kinds, operands, storage, answer) }
    },
);

/// The calls that read a plan and no more than its job.
pub static CHECKS: [Call; 7] = [
    call(
        "check",
        |job, memory| ours::check_plan(&job.block, job.choices, &job.kinds, &job.operands, memory.split().2),
        |job, memory| {
            checks::check_plan(&job.block, job.choices, &job.kinds, &job.operands, memory.split().2)
        },
    ),
    call(
        "check of a block",
        |job, memory| ours::check_plan_block(&job.block, job.choices, &job.plan, memory.split().2),
        |job, memory| checks::check_plan_block(&job.block, job.choices, &job.plan, memory.split().2),
    ),
    call(
        "staged check",
        |Job { block, choices, limit, kinds, operands, .. }, memory| {
            ours::check_plan_staged(block, *choices, *limit, kinds, operands, memory.split().2)
        },
        |Job { block, choices, limit, kinds, operands, .. }, memory| {
            checks::check_plan_staged(block, *choices, *limit, kinds, operands, memory.split().2)
        },
    ),
    call(
        "saw's check",
        |job, memory| ours::saw_check(&job.block, job.choices, &job.kinds, &job.operands, memory.split().2),
        |job, memory| checks::saw_check(&job.block, job.choices, &job.kinds, &job.operands, memory.split().2),
    ),
    call(
        "saw's kinds",
        |Job { block, choices, kinds, operands, .. }, memory| {
            ours::saw_kinds(block, *choices, kinds, operands, 1, memory.split().2)
        },
        |Job { block, choices, kinds, operands, .. }, memory| {
            checks::saw_part(block, *choices, kinds, operands, 1, memory.split().2)
        },
    ),
    call(
        "saw's operands",
        |Job { block, choices, kinds, operands, .. }, memory| {
            ours::saw_operands(block, *choices, kinds, operands, 1, memory.split().2)
        },
        |Job { block, choices, kinds, operands, .. }, memory| {
            checks::saw_part(block, *choices, kinds, operands, 1, memory.split().2)
        },
    ),
    call(
        "neat plan",
        |Job { block, choices, kinds, operands, .. }, memory| {
            let (_, neat, answer) = memory.split();
            ours::neat_plan(block, *choices, kinds, operands, neat, answer)
        },
        |Job { block, choices, kinds, operands, .. }, memory| {
            let (_, neat, answer) = memory.split();
            checks::neat_plan(block, *choices, kinds, operands, neat, answer)
        },
    ),
];

/// The model is the job; before the baseline runs, the proved call has accepted the sizes.
pub static TRUE_SIZES: [Call; 2] = [
    call(
        "check of a model",
        |Job { block, choices, sizes, .. }, memory| {
            ours::check_model(block, *choices, sizes, memory.split().2)
        },
        |Job { block, choices, sizes, .. }, memory| {
            let (_, _, answer) = memory.split();
            // SAFETY: the proved call has accepted job and sizes.
            unsafe { checks::check_model(block, *choices, sizes, answer) }
        },
    ),
    call(
        "true plan",
        |Job { block, choices, sizes, kinds, operands, .. }, memory| {
            let (plan, answer) = memory.true_plan();
            ours::true_plan(block, *choices, sizes, kinds, operands, plan, answer)
        },
        |Job { block, choices, sizes, kinds, operands, .. }, memory| {
            let (plan, answer) = memory.true_plan();
            // SAFETY: the proved call has accepted job and memory.
            unsafe { checks::true_plan(block, *choices, sizes, kinds, operands, plan, answer) }
        },
    ),
];

pub static ORDERS: [Call; 2] = [
    call(
        "plates needed",
        |Job { block, choices, weights, .. }, memory| {
            let (storage, _, answer) = memory.split();
            ours::plates_needed(block, *choices, weights, 0, storage, answer)
        },
        |Job { block, choices, weights, .. }, memory| {
            let storage = memory.split().0;
            // SAFETY: the proved call has accepted job and memory.
            let needed = unsafe { c::plates_needed(block, *choices, weights, 0, storage) };
            memory.put(needed.to_words());
            0
        },
    ),
    call(
        "Lagrangian bound",
        |Job { block, choices, weights, multipliers, .. }, memory| {
            let (storage, _, answer) = memory.split();
            ours::bound_lagrangian(block, *choices, weights, multipliers, storage, answer)
        },
        |Job { block, choices, weights, multipliers, .. }, memory| {
            let storage = memory.split().0;
            // SAFETY: the proved call has accepted job and memory.
            let bound = unsafe { c::bound_lagrangian(block, *choices, weights, multipliers, storage) };
            memory.put(bound.to_words());
            0
        },
    ),
];

pub static RACK: Call = call(
    "rack",
    |Job { block, choices, plates, kinds, operands, .. }, memory| {
        let (rack, answer) = memory.rack(plates);
        ours::check_rack(block, *choices, rack, kinds, operands, answer)
    },
    |Job { block, choices, plates, kinds, operands, .. }, memory| {
        let (rack, answer) = memory.rack(plates);
        checks::check_rack(block, *choices, rack, kinds, operands, answer)
    },
);

impl Call {
    /// The memory that a job needs, as the proved call answers it.
    pub fn enough_for(&self, job: &Job) -> Memory {
        let none = &mut Memory::new(0);
        let words = match (self.ours)(job, none) {
            0 => 0,
            20 => none.answer[0] as usize,
            number => panic!("{} refuses {} by {number} at {}", self.name, job.name, none.answer[0]),
        };
        Memory::new(self.tables * words)
    }
}
