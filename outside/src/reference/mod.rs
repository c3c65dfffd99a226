// An independent implementation of the planner's calls, written for clearness: figures of every
// whole rectangle with a cut at every unit, plans walked with a list of waiting rectangles.
mod bound;
pub mod calls;
mod certificate;
mod exact;
mod figures;
mod job;
mod lagrangian;
mod neat;
mod normal;
mod plan;
mod plates;
mod rack;
mod rounds;
mod saw;
mod staged;
mod true_sizes;
mod two;
mod weights;
mod writer;

pub use bound::bound;
pub use certificate::certify;
pub use exact::{exact, Copies};
pub use figures::Figures;
pub use job::{Job, Kind};
pub use lagrangian::bound_lagrangian;
pub use neat::neat_plan;
pub use normal::normal_positions;
pub use plan::{check_plan, check_plan_block};
pub use plates::plates_needed;
pub use rack::check_rack;
pub use rounds::find_weights;
pub use saw::{saw_check, saw_kinds, saw_operands};
pub use staged::{bound_staged, certify_staged, check_plan_staged};
pub use true_sizes::{check_model, true_job, true_plan};
pub use two::bound_two;
pub use weights::{capacities, capacity};
pub use writer::write_plan;

use crate::answers::Refusal;

/// Passes where the condition of a refusal does not hold.
fn refuse_if(condition: bool, number: u32, place: usize) -> Result<(), Refusal> {
    if condition {
        Err(Refusal { number, place: place as u64 })
    } else {
        Ok(())
    }
}
