// The shop's command as a library, so that tests can use its parts: orders as they are written, and what is given of a
// plan. The plan itself comes from the library `planner_search`.
pub mod commands;
pub mod csv;
mod date;
pub mod drawing;
pub mod error;
pub mod html;
pub mod interrupt;
pub mod json;
pub mod options;
pub mod order;
mod output;
mod places;
mod progress;
pub mod stamp;
pub mod summary;
pub mod svg;
pub mod text;

pub use planner_search as search;
pub use planner_search::{layout, millimetres, outcome, plan, verdict};
