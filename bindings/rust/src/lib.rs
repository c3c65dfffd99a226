//! The proved planner for Rust programs: jobs, choices and plans as types, a [`Planner`] that has every call and lends
//! and grows the storage, refusals as [`Reason`]s and in words. [`slices`] has the same calls on borrowed slices. The
//! library has no state: planners on several threads do not know of each other.
//!
//! Job S of docs/SCOPE.md, a plate 5 by 3 with three kinds of piece, from a job to a plan that is certified as best:
//!
//! ```
//! use planner::{Choices, Job, Kind, Planner, Tree};
//!
//! let kind = |length, width, price, demand| Kind { length, width, price, demand, grain: false };
//! let kinds = vec![kind(2, 3, 7, 1), kind(3, 1, 4, 2), kind(2, 2, 5, 1)];
//! let job = Job { length: 5, width: 3, kerf: 0, kinds };
//! let mut planner = Planner::new(&job, Choices::default(), 1 << 20);
//!
//! let found = planner.find_weights(&Tree::Waste.plan())?;
//! let (bound, plan) = planner.write_plan(&found.weights)?;
//! assert_eq!((bound.bound, planner.check(&plan)?.profit), (16, 16));
//! assert_eq!(planner.certify(&found.weights, &plan)?.gap, 0);
//! # Ok::<(), planner::Error>(())
//! ```
//!
//! The crate links the proved archive: `build.rs` finds it in the folder that `PLANNER_LIB_DIR` names, in the target
//! folder of the planner's repository, or by pkg-config where `make install` has put it.
#![warn(missing_docs)]

pub mod answers;
pub mod blocks;
mod job;
mod pages;
mod planner;
mod rounds;
pub mod slices;
mod storage;
mod table;
mod tree;
mod words;

pub use job::{Choices, Job, Kind, TrueSizes};
pub use planner::Planner;
pub use rounds::{Ended, FoundWeights};
pub use storage::Error;
pub use tree::{Branch, Direction, Operand, Plan, PlanOf, Plate, Tree, TreeOf, TruePlan, TrueTree};
pub use words::Reason;
