// The plan check: refusals 10 to 18, 26 and 36, and the report, whose four areas make up the plate.
// Rectangles that wait for their node are kept in a list, the next one last.
use super::job::{Job, Piece};
use super::refuse_if;
use crate::answers::{Refusal, Report};
use std::ops::Range;

const WASTE: u8 = 0;
const PIECE: u8 = 1;
const CUT_LENGTH: u8 = 2;
const CUT_WIDTH: u8 = 3;
const TURNED_PIECE: u8 = 4;

pub fn check_plan(job: &[u8], choices: u32, kinds: &[u8], operands: &[u16]) -> Result<Report, Refusal> {
    check(&Job::read(job, choices)?, kinds, operands)
}

pub fn check_plan_block(job: &[u8], choices: u32, plan: &[u8]) -> Result<Report, Refusal> {
    let job = Job::read(job, choices)?;
    refuse_if(plan.len() < 2, 10, 0)?;
    let count = usize::from(u16::from_le_bytes([plan[0], plan[1]]));
    refuse_if(plan.len() != 2 + 3 * count, 10, 0)?;
    let (kinds, operands) = plan[2..].split_at(count);
    let operands = operands.chunks(2).map(|two| u16::from_le_bytes([two[0], two[1]]));
    check(&job, kinds, &operands.collect::<Vec<u16>>())
}

pub fn check(job: &Job, kinds: &[u8], operands: &[u16]) -> Result<Report, Refusal> {
    check_arrays(kinds, operands)?;
    let (report, end) = check_tree(job, kinds, operands, 0)?;
    refuse_if(end < kinds.len(), 18, end)?;
    check_cuts(kinds, 0..end)?;
    Ok(report)
}

/// Refusals 10 and 11.
pub fn check_arrays(kinds: &[u8], operands: &[u16]) -> Result<(), Refusal> {
    refuse_if(kinds.len() != operands.len(), 10, 0)?;
    refuse_if(kinds.is_empty() || kinds.len() > 4095, 11, 0)
}

/// Refusals 12 to 17 and 36 of the tree that starts at a node; its report, and where it ends.
pub fn check_tree(
    job: &Job,
    kinds: &[u8],
    operands: &[u16],
    start: usize,
) -> Result<(Report, usize), Refusal> {
    let mut walk = Walk::of(job);
    let mut next = start;
    while let Some(rectangle) = walk.waiting.pop() {
        refuse_if(next == kinds.len(), 17, next)?;
        walk.node(next, kinds[next], operands[next].into(), rectangle)?;
        next += 1;
    }
    Ok((walk.report, next))
}

/// Refusal 26, among these nodes.
pub fn check_cuts(kinds: &[u8], nodes: Range<usize>) -> Result<(), Refusal> {
    for at in nodes {
        refuse_if(is_cut(kinds[at]) && !tree(&kinds[at..]).iter().any(is_piece), 26, at)?;
    }
    Ok(())
}

pub fn is_cut(kind: u8) -> bool {
    kind == CUT_LENGTH || kind == CUT_WIDTH
}

fn is_piece(kind: &u8) -> bool {
    *kind == PIECE || *kind == TURNED_PIECE
}

/// The nodes of the tree that begins with the first one.
pub fn tree(kinds: &[u8]) -> &[u8] {
    let (mut parts, mut end) = (1, 0);
    while parts > 0 {
        parts = if is_cut(kinds[end]) { parts + 1 } else { parts - 1 };
        end += 1;
    }
    &kinds[..end]
}

struct Walk<'a> {
    job: &'a Job,
    waiting: Vec<(usize, usize)>,
    report: Report,
}

impl Walk<'_> {
    fn of(job: &Job) -> Walk<'_> {
        let copies = [0; 64];
        let report = Report { profit: 0, pieces: 0, waste: 0, trim: 0, copies, sawdust: 0 };
        Walk { job, waiting: vec![(job.length, job.width)], report }
    }

    fn node(
        &mut self,
        at: usize,
        kind: u8,
        operand: usize,
        (length, width): (usize, usize),
    ) -> Result<(), Refusal> {
        refuse_if(kind > if self.job.turning { TURNED_PIECE } else { CUT_WIDTH }, 12, at)?;
        if kind == WASTE {
            refuse_if(operand != 0, 14, at)?;
            self.report.waste += (length * width) as u64;
        } else if kind == PIECE || kind == TURNED_PIECE {
            refuse_if(operand >= self.job.kinds.len(), 13, at)?;
            let turned = kind == TURNED_PIECE;
            refuse_if(turned && !self.job.turns(operand), 36, at)?;
            self.piece(at, self.job.piece(operand, turned), length, width)?;
        } else if kind == CUT_LENGTH {
            let second = self.cut(at, length, operand, width)?;
            self.waiting.extend([(second, width), (operand, width)]);
        } else {
            let second = self.cut(at, width, operand, length)?;
            self.waiting.extend([(length, second), (length, operand)]);
        }
        Ok(())
    }

    /// Cuts a side at a position: the blade runs along the other side. Gives the second part.
    fn cut(&mut self, at: usize, side: usize, position: usize, along: usize) -> Result<usize, Refusal> {
        let out_of_range = Refusal { number: 14, place: at as u64 };
        let second = self.job.second(side, position).ok_or(out_of_range)?;
        self.report.sawdust += (self.job.kerf * along) as u64;
        Ok(second)
    }

    fn piece(&mut self, at: usize, piece: Piece, length: usize, width: usize) -> Result<(), Refusal> {
        let kind = &self.job.kinds[piece.kind];
        refuse_if(!piece.fits(length, width), 15, at)?;
        refuse_if(self.report.copies[piece.kind] == kind.demand, 16, at)?;
        let area = piece.length * piece.width;
        self.report.copies[piece.kind] += 1;
        self.report.profit += kind.price;
        self.report.pieces += area as u64;
        self.report.trim += (length * width - area) as u64;
        Ok(())
    }
}
