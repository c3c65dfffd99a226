// Two weights a kind: refusals 24 and 25, and figures at every pair of shares, the second fastest.
// Straight from the definition: a cut shares out both capacities.
use super::bound::Cells;
use super::figures::Figures;
use super::job::Job;
use super::weights::capacities;
use crate::answers::{BoundTwo, Refusal, Storage};

pub fn bound_two(
    job: &[u8],
    choices: u32,
    first: &[u8],
    second: &[u8],
    storage: Storage,
) -> Result<BoundTwo, Refusal> {
    let job = Job::read(job, choices)?;
    let [most, other] = capacities(&job, first, second)?;
    let weights: Vec<[u8; 2]> = first.iter().zip(second).map(|(&a, &b)| [a, b]).collect();
    let cells = Cells::list(&job, storage.lengths, storage.widths)?;
    let pairs = (most + 1) * (other + 1);
    let figures = cells.fill(storage.table, 1, pairs, || vec![figures(&job, &weights, [most, other])])?;
    Ok(BoundTwo {
        bound: figures[0].at(job.length, job.width, pairs - 1),
        capacities: [most, other].map(|capacity| capacity as u64),
        lengths: cells.lengths.len() as u64,
        widths: cells.widths.len() as u64,
    })
}

fn figures(job: &Job, weights: &[[u8; 2]], capacities: [usize; 2]) -> Figures {
    let [rows, row] = capacities.map(|capacity| capacity + 1);
    Figures::each(job, rows * row, |figures, length, width| {
        let mut best = vec![0; rows * row];
        for piece in job.pieces().filter(|piece| piece.fits(length, width)) {
            let (price, [a, b]) = (job.kinds[piece.kind].price, weights[piece.kind]);
            for shares in best.chunks_mut(row).skip(a.into()) {
                shares.iter_mut().skip(b.into()).for_each(|best| *best = price.max(*best));
            }
        }
        for (first, second) in job.parts(length) {
            raise(&mut best, figures.shares_of(first, width), figures.shares_of(second, width), row);
        }
        for (first, second) in job.parts(width) {
            raise(&mut best, figures.shares_of(length, first), figures.shares_of(length, second), row);
        }
        best
    })
}

/// Raises each pair's figure to the best sum over the ways to split both shares between two parts.
fn raise(best: &mut [u64], first: &[u64], second: &[u64], row: usize) {
    for (pair, x) in first.iter().enumerate() {
        let (a, b) = (pair / row, pair % row);
        for (sums, others) in best.chunks_mut(row).skip(a).zip(second.chunks(row)) {
            for (sum, y) in sums[b..].iter_mut().zip(others) {
                *sum = (*sum).max(x + y);
            }
        }
    }
}
