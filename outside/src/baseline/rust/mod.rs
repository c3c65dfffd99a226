// The baseline in Rust: the tabled algorithm as fast as we know how to write it.
// Jobs are taken as accepted, in the new block, and storage as large enough.
mod plate;
mod row_fill;
mod state_fill;
mod writer;

use crate::answers::{Bound, PlanArrays, Storage, Written};
use plate::{Plate, LENGTH, WIDTH};

pub fn bound(job: &[u8], choices: u32, weights: &[u8], storage: Storage) -> Bound {
    fill(&Plate::read(job, choices, weights), storage)
}

pub fn write_plan(job: &[u8], choices: u32, weights: &[u8], storage: Storage, plan: PlanArrays) -> Written {
    let Storage { lengths, widths, table } = storage;
    let plate = Plate::read(job, choices, weights);
    let bound = fill(&plate, Storage { lengths, widths, table });
    Written { bound, nodes: writer::write_nodes(&plate, table, plan) as u64 }
}

fn fill(plate: &Plate, storage: Storage) -> Bound {
    let (lengths, widths) = (&plate.on[LENGTH].at, &plate.on[WIDTH].at);
    let (p, r) = (lengths.len(), widths.len());
    storage.lengths[..p].copy_from_slice(lengths);
    storage.widths[..r].copy_from_slice(widths);
    let table = &mut storage.table[..p * r * (plate.capacity + 1)];
    if plate.capacity == 0 {
        row_fill::fill(plate, table);
    } else {
        state_fill::fill(plate, table);
    }
    Bound {
        bound: table[table.len() - 1],
        capacity: plate.capacity as u64,
        lengths: p as u64,
        widths: r as u64,
    }
}
