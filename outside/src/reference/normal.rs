// Normal positions of a side: 0 and every sum, with repetition, up to it, of the sides of the pieces
// that fit the plate as they lie; all sides, the plate's too, with the kerf added.
// Found by adding sides to known positions until nothing new comes.
use super::job::{Job, Piece};
use std::collections::BTreeSet;

/// The normal lengths and the normal widths.
pub fn normal_positions(job: &Job) -> (Vec<usize>, Vec<usize>) {
    let fitting = || job.pieces().filter(|piece| piece.fits(job.length, job.width));
    let sums_up_to = |plate: usize, side: fn(Piece) -> usize| {
        let sides: Vec<usize> = fitting().map(|piece| side(piece) + job.kerf).collect();
        sums(plate + job.kerf, &sides)
    };
    (sums_up_to(job.length, |piece| piece.length), sums_up_to(job.width, |piece| piece.width))
}

fn sums(side: usize, sides: &[usize]) -> Vec<usize> {
    let mut known = BTreeSet::new();
    let mut fresh = vec![0];
    while let Some(position) = fresh.pop() {
        if known.insert(position) {
            fresh.extend(sides.iter().map(|s| position + s).filter(|&sum| sum <= side));
        }
    }
    known.into_iter().collect()
}
