// The planner as a Rust program sees it: the wrapper over planner.h, an independent reference
// implementation of the same calls, and the baselines that the benchmark measures against.
pub mod baseline;
pub mod calls;
pub mod random;
pub mod reference;

pub use planner::{answers, blocks, slices};
