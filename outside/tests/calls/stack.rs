// The proved calls on a small stack: each runs on a thread that has no more than planner.h promises to be
// enough, above a page that nobody may touch, and what it needs of that stack is measured.
use crate::lent::{Lent, Sizes};
use crate::run::{Call, Input, STAGED_CALLS};
use outside::calls::PROVED;
use std::ffi::c_void;

/// The stack that planner.h asks for.
const STACK: usize = 128 << 10;

/// A stack for the measure itself.
const AMPLE: usize = 8 << 20;

/// What a thread takes of its stack before and beside the call.
const THREAD: usize = 16 << 10;

extern "C" {
    fn stack_used(bytes: usize, run: extern "C" fn(*mut c_void), data: *mut c_void) -> usize;
}

/// Runs one proved call on a thread with a small stack.
pub fn on_small_stack(call: Call, input: &Input, sizes: Sizes) -> (u32, Lent) {
    let (choices, nodes) = (input.choices, input.kinds.len());
    let mut what = format!("{call:?}, choices {choices}, {nodes} nodes");
    if STAGED_CALLS.contains(&call) {
        what += &format!(", within {}", input.limit);
    }
    fits_small_stack(&what, || {
        let mut lent = Lent::new(sizes);
        let code = call.run(&PROVED, input, &mut lent);
        (code, lent)
    })
}

/// The bytes of stack that a proved call needs.
pub fn needed_by(call: Call, input: &Input, sizes: Sizes) -> usize {
    let mut lent = Lent::new(sizes);
    measured(STACK, || _ = call.run(&PROVED, input, &mut lent))
}

/// Runs proved work on a thread with a small stack.
pub fn fits_small_stack<A>(what: &str, work: impl Fn() -> A) -> A {
    let mut given = None;
    let used = measured(STACK, || given = Some(work()));
    println!("{what}: {used} bytes of stack");
    assert!(used + THREAD <= STACK, "{what} needs {used} bytes of stack");
    given.expect("the work has ended")
}

/// The bytes that the work needs of a stack of so many.
fn measured<F: FnMut()>(bytes: usize, mut work: F) -> usize {
    extern "C" fn run<F: FnMut()>(work: *mut c_void) {
        // SAFETY: the work is borrowed below until the thread has ended.
        unsafe { (*work.cast::<F>())() }
    }
    // SAFETY: the work runs on its thread alone, and that thread has ended when the call returns.
    unsafe { stack_used(bytes, run::<F>, (&raw mut work).cast()) }
}

#[test]
fn the_stack_is_measured() {
    let small = measured(AMPLE, || _ = std::hint::black_box([1u8; 1000]));
    let large = measured(AMPLE, || _ = std::hint::black_box([1u8; 300_000]));
    assert!((1000..3000).contains(&small), "{small} bytes for 1,000");
    assert!((300_000..303_000).contains(&large), "{large} bytes for 300,000");
}
