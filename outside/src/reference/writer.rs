// The plan behind the figures, chosen from those of whole rectangles: refusal 21.
// The order of choice is the scope's; a cut stands at a side of a cell, the remainder is true. A cut
// that has no second part is left out.
use super::bound::{tabled, Cells};
use super::figures::Figures;
use super::job::{Job, Piece};
use super::refuse_if;
use super::weights::capacity;
use crate::answers::{PlanArrays, Refusal, Storage, Written};

/// How the share of a rectangle is used by a piece and given out to two parts.
pub trait Shares {
    /// Whether the share has enough for a piece of the kind.
    fn has(&self, share: usize, kind: usize) -> bool;

    /// Whether the first part of a cut may have this of the share.
    fn divides(&self, share: usize, first: usize) -> bool;
}

/// Shares of a capacity.
struct Weights<'a>(&'a [u8]);

impl Shares for Weights<'_> {
    fn has(&self, share: usize, kind: usize) -> bool {
        usize::from(self.0[kind]) <= share
    }

    fn divides(&self, share: usize, first: usize) -> bool {
        first <= share
    }
}

/// A rectangle and its share.
type Part = (usize, usize, usize);

enum Choice {
    Waste,
    Piece(Piece),
    CutLength(usize, usize),
    CutWidth(usize, usize),
}

pub fn write_plan(
    job: &[u8],
    choices: u32,
    weights: &[u8],
    storage: Storage,
    plan: PlanArrays,
) -> Result<Written, Refusal> {
    let job = Job::read(job, choices)?;
    let capacity = capacity(&job, weights)?;
    let tabled = tabled(&job, weights, capacity, storage)?;
    let table = (&tabled.figures, &tabled.cells);
    let nodes = write(&job, &Weights(weights), table, capacity, plan)?;
    Ok(Written { bound: tabled.bound, nodes: nodes as u64 })
}

/// Writes the plan of the plate with the whole share, and gives the number of its nodes.
pub fn write(
    job: &Job,
    shares: &impl Shares,
    table: (&Figures, &Cells),
    whole: usize,
    plan: PlanArrays,
) -> Result<usize, Refusal> {
    let nodes = nodes(job, shares, table, whole);
    let room = plan.kinds.len().min(plan.operands.len()).min(4095);
    refuse_if(nodes.len() > room, 21, nodes.len())?;
    for (i, &(kind, operand)) in nodes.iter().enumerate() {
        plan.kinds[i] = kind;
        plan.operands[i] = operand as u16;
    }
    Ok(nodes.len())
}

fn nodes(job: &Job, shares: &impl Shares, table: (&Figures, &Cells), whole: usize) -> Vec<(u8, usize)> {
    let mut nodes = Vec::new();
    let mut waiting = vec![(job.length, job.width, whole)];
    while let Some(part) = waiting.pop() {
        let (length, width, share) = part;
        match choose(job, shares, table, part) {
            Choice::Waste => nodes.push((0, 0)),
            Choice::Piece(piece) => nodes.push((if piece.turned { 4 } else { 1 }, piece.kind)),
            Choice::CutLength(cut, first) => {
                if let Some(second) = job.second(length, cut) {
                    nodes.push((2, cut));
                    waiting.push((second, width, share - first));
                }
                waiting.push((cut, width, first));
            }
            Choice::CutWidth(cut, first) => {
                if let Some(second) = job.second(width, cut) {
                    nodes.push((3, cut));
                    waiting.push((length, second, share - first));
                }
                waiting.push((length, cut, first));
            }
        }
    }
    nodes
}

fn choose(
    job: &Job,
    shares: &impl Shares,
    (figures, cells): (&Figures, &Cells),
    (length, width, share): Part,
) -> Choice {
    let value = figures.at(length, width, share);
    if value == 0 {
        return Choice::Waste;
    }
    let earns = |piece: &Piece| {
        let price = job.kinds[piece.kind].price;
        piece.fits(length, width) && shares.has(share, piece.kind) && price == value
    };
    if let Some(piece) = job.pieces().find(earns) {
        return Choice::Piece(piece);
    }
    let firsts: Vec<usize> = (0..=share).filter(|&first| shares.divides(share, first)).collect();
    let earns = |(first, second): (&[u64], &[u64])| {
        firsts.iter().copied().find(|&c| first[c] + second[share - c] == value)
    };
    let second = |side, cut| job.second(side, cut).unwrap_or(0);
    let across = |cut| earns((figures.shares_of(cut, width), figures.shares_of(second(length, cut), width)));
    if let Some((cut, first)) = first_pair(&cells.lengths, length, across) {
        return Choice::CutLength(cut, first);
    }
    let along = |cut| earns((figures.shares_of(length, cut), figures.shares_of(length, second(width, cut))));
    let (cut, first) = first_pair(&cells.widths, width, along)
        .expect("a figure that no piece and no length cut earns is earned by a width cut");
    Choice::CutWidth(cut, first)
}

/// The first position at which a share of the first part earns the value, and the first such share.
fn first_pair(
    positions: &[usize],
    side: usize,
    earns: impl Fn(usize) -> Option<usize>,
) -> Option<(usize, usize)> {
    let tabled = *positions.iter().rev().find(|&&x| x <= side)?;
    let mut cuts = positions.iter().filter(|&&x| x >= 1 && x < tabled);
    cuts.find_map(|&cut| Some((cut, earns(cut)?)))
}
