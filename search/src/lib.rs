//! Plans for whole orders in one typed call: [`plan_order`] cuts every panel from as few boards as possible and says how
//! few any plan needs, [`plan_board`] makes the most of one board, [`judge_plans`] judges plans that somebody has drawn.
//!
//! Boards are packed by ruin and recreate at true sizes, and bounds come from the proved calls on small models. Both run
//! side by side. The search proves nothing and need not: a verdict rests on proved calls alone. Without a time work is
//! counted, and the same order always gets the same plan.
//!
//! ```
//! use planner_search::{plan_order, Limits, Millimetres, Order, Panel, Plate, Progress};
//!
//! let mm = |text: &str| Millimetres::read(text).expect("millimetres");
//! let order = Order {
//!     plates: vec![Plate::new(mm("2440"), mm("1220"))],
//!     kerf: mm("3.2"),
//!     panels: vec![Panel::new("shelf", mm("607"), mm("402"), 24)],
//!     ..Order::default()
//! };
//! let outcome = plan_order(order, Limits::default(), &Progress::none())?;
//! assert_eq!(outcome.verdict.sentence(), "2 boards: no plan needs fewer");
//! let first = &outcome.boards[0].layout.panels[0];
//! assert_eq!((first.rect.length, first.rect.width), (607_000, 402_000));
//! # Ok::<(), planner_search::Error>(())
//! ```
mod board;
mod bound;
mod clock;
mod dice;
mod error;
mod judge;
pub mod layout;
pub mod millimetres;
mod model;
mod one;
pub mod order;
pub mod outcome;
mod pack;
pub mod plan;
mod planning;
mod proof;
mod short;
mod simplex;
mod table;
mod task;
pub mod verdict;
mod weighing;
mod weights;
mod whole;

pub use board::Board;
pub use bound::{Floor, Offer};
pub use clock::{stop, Clock};
pub use error::Error;
pub use judge::judge;
pub use millimetres::Millimetres;
pub use model::Model;
pub use one::{bounds_of_board, held, one, One, Prices};
pub use order::{Order, OrderFault, Panel, Plate};
pub use outcome::Outcome;
pub use pack::Packing;
pub use planning::{judge_plans, on_deep_stack, plan_board, plan_order, Filed};
pub use proof::{Modelled, Priced};
pub use task::{Kind, Stock, Task};
pub use verdict::Verdict;
pub use whole::{bounds_of_order, whole, Whole};

use std::time::Duration;

/// What a search may take. The memory is that of one table, in bytes.
#[derive(Clone, Copy, Debug, PartialEq, Eq)]
pub struct Limits {
    pub seconds: Option<Duration>,
    pub memory: u64,
}

/// What a search has seen so far.
#[derive(Clone, Copy, Debug)]
pub enum Seen {
    /// One board: what it is worth and the most possible, in prices.
    Worth { worth: i64, most: i64 },
    /// A whole order: its boards and cost, and the least possible cost.
    Cost { boards: usize, cost: u64, least: u64 },
}

impl Default for Limits {
    /// As long as the steps take, and a table of a gigabyte.
    fn default() -> Limits {
        Limits { seconds: None, memory: 1 << 30 }
    }
}

/// What is told how a search goes on: what was seen, and after what time.
type Told = dyn Fn(Seen, Duration) + Send + Sync;

/// Tells somebody how a search goes on.
pub struct Progress {
    told: Option<Box<Told>>,
}

impl Progress {
    /// Nobody is told.
    pub fn none() -> Progress {
        Progress { told: None }
    }

    /// This is told, now and then.
    pub fn new(told: impl Fn(Seen, Duration) + Send + Sync + 'static) -> Progress {
        Progress { told: Some(Box::new(told)) }
    }

    fn show(&self, seen: Seen, clock: Clock) {
        if let Some(told) = &self.told {
            told(seen, clock.elapsed());
        }
    }
}
