// The weights and the capacity: refusals 8 and 9; of two weights a kind 24 and 25 besides.
// A kind counts with its demand, or with what the plate can hold where that is less and the full
// demand is not chosen. What the plate can hold is read from sides with the kerf added.
use super::job::Job;
use super::refuse_if;
use crate::answers::Refusal;

pub fn capacity(job: &Job, weights: &[u8]) -> Result<usize, Refusal> {
    refuse_if(weights.len() != job.kinds.len(), 8, 0)?;
    let total = total(job, weights);
    refuse_if(total > 4095, 9, 0)?;
    Ok(total)
}

/// Both capacities.
pub fn capacities(job: &Job, first: &[u8], second: &[u8]) -> Result<[usize; 2], Refusal> {
    refuse_if(first.len() != job.kinds.len(), 8, 0)?;
    refuse_if(second.len() != job.kinds.len(), 24, 0)?;
    let totals = [first, second].map(|weights| total(job, weights));
    refuse_if(totals.iter().any(|&total| total > 4095), 9, 0)?;
    refuse_if((totals[0] + 1) * (totals[1] + 1) > 65_536, 25, 0)?;
    Ok(totals)
}

fn total(job: &Job, weights: &[u8]) -> usize {
    let each = weights.iter().enumerate();
    each.map(|(kind, &weight)| counted(job, kind) as usize * usize::from(weight)).sum()
}

/// The copies of a kind that the capacity counts.
fn counted(job: &Job, kind: usize) -> u64 {
    let demand = job.kinds[kind].demand;
    if job.full_demand {
        demand
    } else {
        demand.min(held(job, kind) as u64)
    }
}

/// The copies of a kind that can lie on one plate: upright ones in rows and columns; where its pieces
/// may be turned, what the areas allow, or none if it fits neither way.
fn held(job: &Job, kind: usize) -> usize {
    let upright = job.piece(kind, false);
    let sides = [job.length, job.width, upright.length, upright.width];
    let [plate_length, plate_width, length, width] = sides.map(|side| side + job.kerf);
    let fits = |turned| job.piece(kind, turned).fits(job.length, job.width);
    if !job.turns(kind) {
        (plate_length / length) * (plate_width / width)
    } else if fits(false) || fits(true) {
        (plate_length * plate_width) / (length * width)
    } else {
        0
    }
}
