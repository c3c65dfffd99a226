// Neat plans: the plan is read into a tree, tidied part by part, and listed again.
use super::job::Job;
use super::plan::check;
use super::refuse_if;
use crate::answers::{Neat, PlanArrays, PlanArraysOf, Refusal};

/// A plan as a tree: a cut has its kind, its position and its two parts.
enum Tree {
    Waste,
    Piece { kind: u8, number: u16 },
    Cut { kind: u8, position: usize, parts: Box<[Tree; 2]> },
}

/// A neat tree, and its used length and width.
struct Used {
    tree: Tree,
    length: usize,
    width: usize,
}

pub fn neat_plan(
    job: &[u8],
    choices: u32,
    kinds: &[u8],
    operands: &[u16],
    plan: PlanArrays,
) -> Result<Neat, Refusal> {
    let job = Job::read(job, choices)?;
    check(&job, kinds, operands)?;
    let nodes = tidied(&job, kinds, operands).write(plan)?;
    Ok(Neat { nodes })
}

/// A neat plan, listed, and its used length and width.
pub struct Tidied {
    nodes: Vec<(u8, usize)>,
    pub length: usize,
    pub width: usize,
}

/// The neat plan of a plan that passes its check, at the sizes of this job.
pub fn tidied(job: &Job, kinds: &[u8], operands: &[u16]) -> Tidied {
    let mut nodes = kinds.iter().copied().zip(operands.iter().copied());
    let none = Used { tree: Tree::Waste, length: 0, width: 0 };
    let Used { tree, length, width } = neat(job, read(&mut nodes)).unwrap_or(none);
    let mut nodes = Vec::new();
    list(&tree, &mut nodes);
    Tidied { nodes, length, width }
}

impl Tidied {
    /// Writes the nodes and counts them: refusal 21.
    pub fn write<P: TryFrom<usize>>(self, plan: PlanArraysOf<P>) -> Result<u64, Refusal> {
        let count = self.nodes.len();
        refuse_if(count > plan.kinds.len().min(plan.operands.len()), 21, count)?;
        for (i, (kind, operand)) in self.nodes.into_iter().enumerate() {
            plan.kinds[i] = kind;
            plan.operands[i] = P::try_from(operand).ok().expect("a position on the plate");
        }
        Ok(count as u64)
    }
}

fn read(nodes: &mut impl Iterator<Item = (u8, u16)>) -> Tree {
    match nodes.next().expect("a plan that passed its check") {
        (0, _) => Tree::Waste,
        (kind @ (1 | 4), number) => Tree::Piece { kind, number },
        (kind, position) => {
            let parts = Box::new([read(nodes), read(nodes)]);
            Tree::Cut { kind, position: position.into(), parts }
        }
    }
}

/// None where the tree holds no piece.
fn neat(job: &Job, tree: Tree) -> Option<Used> {
    match tree {
        Tree::Waste => None,
        Tree::Piece { kind, number } => {
            let piece = job.piece(number.into(), kind == 4);
            Some(Used { tree, length: piece.length, width: piece.width })
        }
        Tree::Cut { kind, parts, .. } => match parts.map(|part| neat(job, part)) {
            [Some(first), Some(second)] => Some(join(job, kind, first, second)),
            [first, second] => first.or(second),
        },
    }
}

/// A cut that remains: the kerf between the parts along it, the greater of them across it.
fn join(job: &Job, kind: u8, first: Used, second: Used) -> Used {
    let along = |first: usize, second: usize| first + job.kerf + second;
    let (position, length, width) = if kind == 2 {
        (first.length, along(first.length, second.length), first.width.max(second.width))
    } else {
        (first.width, first.length.max(second.length), along(first.width, second.width))
    };
    let parts = Box::new([first.tree, second.tree]);
    Used { tree: Tree::Cut { kind, position, parts }, length, width }
}

fn list(tree: &Tree, nodes: &mut Vec<(u8, usize)>) {
    match tree {
        Tree::Waste => nodes.push((0, 0)),
        Tree::Piece { kind, number } => nodes.push((*kind, (*number).into())),
        Tree::Cut { kind, position, parts } => {
            nodes.push((*kind, *position));
            parts.iter().for_each(|part| list(part, nodes));
        }
    }
}
