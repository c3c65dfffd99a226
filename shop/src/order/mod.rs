// Orders as they are written, by hand or from a spreadsheet, and as they are filed. Nothing but inches is rounded, to
// thousandths of a millimetre.
mod cells;
mod checks;
mod commas;
mod encoding;
mod fault;
mod heading;
mod lengths;
mod names;
mod reader;
mod writer;

pub use fault::Fault;
pub use planner_search::order::{Order, Panel, Plate};
pub use reader::read;
pub use writer::text;
