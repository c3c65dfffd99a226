// True sizes: refusals 31 to 34. A model is tried on every chain of pieces that fits the true plate, by its
// extent at the true sizes and in the model; a plan is made neat at the true sizes.
use super::job::{four, Job, Kind, Piece};
use super::neat::tidied;
use super::plan::check;
use super::refuse_if;
use crate::answers::{Fitted, Passed, Refusal, TruePlanArrays};
use std::collections::BTreeSet;

pub fn check_model(block: &[u8], choices: u32, sizes: &[u8]) -> Result<Passed, Refusal> {
    let model = Job::read(block, choices)?;
    let job = true_job(&model, sizes)?;
    refuse_if(!chains_fit(&job, &model, |piece| piece.length, |job| job.length), 33, 0)?;
    refuse_if(!chains_fit(&job, &model, |piece| piece.width, |job| job.width), 33, 1)?;
    Ok(Passed)
}

pub fn true_plan(
    block: &[u8],
    choices: u32,
    sizes: &[u8],
    kinds: &[u8],
    operands: &[u16],
    plan: TruePlanArrays,
) -> Result<Fitted, Refusal> {
    let model = Job::read(block, choices)?;
    let job = true_job(&model, sizes)?;
    check(&model, kinds, operands)?;
    let neat = tidied(&job, kinds, operands);
    refuse_if(neat.length > job.length, 34, 0)?;
    refuse_if(neat.width > job.width, 34, 1)?;
    let (length, width) = (neat.length as u64, neat.width as u64);
    Ok(Fitted { nodes: neat.write(plan)?, length, width })
}

/// The job at the true sizes: refusals 31 and 32.
pub fn true_job(model: &Job, sizes: &[u8]) -> Result<Job, Refusal> {
    refuse_if(sizes.len() != 12 + 8 * model.kinds.len(), 31, 0)?;
    let is_no_side = |side: usize| !(1..=100_000_000).contains(&side);
    let [length, width, kerf] = [0, 4, 8].map(|at| four(sizes, at));
    refuse_if(is_no_side(length) || is_no_side(width) || kerf > 1_000_000, 32, 0)?;
    let mut kinds = Vec::new();
    for (i, (kind, size)) in model.kinds.iter().zip(sizes[12..].chunks(8)).enumerate() {
        let (length, width) = (four(size, 0), four(size, 4));
        refuse_if(is_no_side(length) || is_no_side(width), 32, 1 + i)?;
        kinds.push(Kind { length, width, ..*kind });
    }
    Ok(Job { length, width, kerf, kinds, ..*model })
}

/// Whether every chain of pieces along a side that fits the true plate fits the model's. Each piece takes
/// its side and a kerf, and the plate has room for its own side and a kerf.
fn chains_fit(job: &Job, model: &Job, side: fn(&Piece) -> usize, plate: fn(&Job) -> usize) -> bool {
    let mut chains = BTreeSet::from([(0, 0)]);
    for kind in 0..job.kinds.len() {
        let ways = job.pieces().filter(|piece| piece.kind == kind);
        let ways = ways.filter(|piece| piece.fits(job.length, job.width));
        let taken = |piece: Piece| {
            let model_piece = model.piece(kind, piece.turned);
            (side(&piece) + job.kerf, side(&model_piece) + model.kerf)
        };
        let ways: Vec<(usize, usize)> = ways.map(taken).collect();
        let mut longest = chains.clone();
        for _ in 0..job.kinds[kind].demand {
            let longer = |(a, b): (usize, usize)| ways.iter().map(move |(c, d)| (a + c, b + d));
            longest = longest.into_iter().flat_map(longer).collect();
            longest.retain(|chain| chain.0 <= plate(job) + job.kerf && !chains.contains(chain));
            if longest.is_empty() {
                break;
            }
            chains.extend(&longest);
        }
    }
    chains.iter().all(|chain| chain.1 <= plate(model) + model.kerf)
}
