// No more than so many stages: the staged check, bound and certificate; refusals 22 and 23.
// A tree's stages are the most changes of direction on a path down through its cuts, plus one.
use super::bound::Cells;
use super::figures::{single_pieces, Figures};
use super::job::Job;
use super::plan::{check, is_cut};
use super::refuse_if;
use super::weights::capacity;
use crate::answers::{Bound, Certificate, Refusal, StagedReport, Storage};

pub fn check_plan_staged(
    job: &[u8],
    choices: u32,
    limit: u32,
    kinds: &[u8],
    operands: &[u16],
) -> Result<StagedReport, Refusal> {
    let job = Job::read(job, choices)?;
    let limit = accepted(limit)?;
    check_staged(&job, limit, kinds, operands)
}

pub fn bound_staged(
    job: &[u8],
    choices: u32,
    weights: &[u8],
    limit: u32,
    storage: Storage,
) -> Result<Bound, Refusal> {
    let job = Job::read(job, choices)?;
    let capacity = capacity(&job, weights)?;
    let limit = accepted(limit)?;
    tabled_staged(&job, weights, capacity, limit, storage)
}

pub fn certify_staged(
    job: &[u8],
    choices: u32,
    weights: &[u8],
    limit: u32,
    kinds: &[u8],
    operands: &[u16],
    storage: Storage,
) -> Result<Certificate, Refusal> {
    let job = Job::read(job, choices)?;
    let capacity = capacity(&job, weights)?;
    let limit = accepted(limit)?;
    let profit = check_staged(&job, limit, kinds, operands)?.report.profit;
    let bound = tabled_staged(&job, weights, capacity, limit, storage)?.bound;
    let gap = bound.checked_sub(profit).expect("no plan within limit and demands is above the bound");
    Ok(Certificate { gap, bound, profit })
}

fn accepted(limit: u32) -> Result<usize, Refusal> {
    refuse_if(!(1..=8).contains(&limit), 22, 0)?;
    Ok(limit as usize)
}

fn check_staged(job: &Job, limit: usize, kinds: &[u8], operands: &[u16]) -> Result<StagedReport, Refusal> {
    let report = check(job, kinds, operands)?;
    let stages = stages_of_nodes(kinds);
    for (at, &own) in stages.iter().enumerate() {
        refuse_if(own > limit, 23, at)?;
    }
    Ok(StagedReport { report, stages: stages.into_iter().max().unwrap_or(0) as u64 })
}

/// For each node of a tree the stages of the path down to it, itself included.
fn stages_of_nodes(kinds: &[u8]) -> Vec<usize> {
    let mut waiting = vec![(None, 0)];
    let mut stages = Vec::new();
    for &kind in kinds {
        let (above, so_far) = waiting.pop().expect("a plan that passed its check");
        let changes = is_cut(kind) && above != Some(kind);
        let own = if changes { so_far + 1 } else { so_far };
        if is_cut(kind) {
            waiting.extend([(Some(kind), own); 2]);
        }
        stages.push(own);
    }
    stages
}

fn tabled_staged(
    job: &Job,
    weights: &[u8],
    capacity: usize,
    limit: usize,
    storage: Storage,
) -> Result<Bound, Refusal> {
    let cells = Cells::list(job, storage.lengths, storage.widths)?;
    let figures =
        cells.fill(storage.table, 2 * limit + 1, capacity + 1, || blocks(job, weights, capacity, limit))?;
    let last = |block: usize| figures[block].at(job.length, job.width, capacity);
    Ok(Bound {
        bound: last(2 * limit - 1).max(last(2 * limit)),
        capacity: capacity as u64,
        lengths: cells.lengths.len() as u64,
        widths: cells.widths.len() as u64,
    })
}

/// The figures of trees with no cut; then, stage by stage, of those whose first cuts are of the length
/// and of those whose first cuts are of the width.
fn blocks(job: &Job, weights: &[u8], capacity: usize, limit: usize) -> Vec<Figures> {
    let mut blocks = vec![Figures::each(job, capacity + 1, |_, length, width| {
        single_pieces(job, weights, capacity, length, width)
    })];
    for stage in 1..=limit {
        let [length_before, width_before] = [(2 * stage).saturating_sub(3), 2 * stage - 2];
        let length_first = first_cuts(job, &blocks[width_before], Figures::cut_length);
        let width_first = first_cuts(job, &blocks[length_before], Figures::cut_width);
        blocks.extend([length_first, width_first]);
    }
    blocks
}

/// What a block of one stage fewer earns, or cuts of one direction between figures of the new block.
fn first_cuts(job: &Job, before: &Figures, cut: fn(&Figures, &Job, usize, usize, &mut [u64])) -> Figures {
    Figures::each(job, before.shares(), |figures, length, width| {
        let mut best = before.shares_of(length, width).to_vec();
        cut(figures, job, length, width, &mut best);
        best
    })
}
