//! Plans as trees and as the two arrays that the calls take: the preorder of a tree, with positions in the
//! job's units or in true ones. A tree may be one that the planner refuses, and of any depth: nothing here
//! recurses.

use crate::blocks::plan_block;
use std::fmt;
use std::mem;
use std::ops::{Deref, DerefMut};

/// A word that holds positions and numbers of kinds.
pub trait Operand: Copy + PartialEq + fmt::Debug + From<u16> + TryInto<u16> {}

impl Operand for u16 {}

impl Operand for u32 {}

/// The side of a rectangle that a cut divides.
#[derive(Clone, Copy, Debug, PartialEq, Eq)]
pub enum Direction {
    /// The cut divides the length.
    Length,
    /// The cut divides the width.
    Width,
}

/// What becomes of a rectangle.
///
/// ```
/// use planner::{Direction, Plan, Tree};
///
/// let piece = |kind| Tree::Piece { kind, turned: false };
/// let tree = Tree::cut(Direction::Length, 2, piece(0), Tree::Waste);
/// let plan = tree.plan();
/// assert_eq!(plan, Plan { kinds: vec![2, 1, 0], operands: vec![2, 0, 0] });
/// assert_eq!(plan.tree(), Some(tree));
/// ```
pub enum TreeOf<P> {
    /// Nothing is made of it.
    Waste,
    /// A piece lies in its corner; what is left beside it is trim.
    Piece {
        /// The number of its kind, from 0.
        kind: u16,
        /// Whether it is turned by a quarter.
        turned: bool,
    },
    /// It is cut in two, and the blade takes the kerf between the parts.
    Cut {
        /// The side that is divided.
        direction: Direction,
        /// The first part's size on that side.
        at: P,
        /// What becomes of the first part.
        first: Branch<P>,
        /// What becomes of the second part.
        second: Branch<P>,
    },
}

/// A tree below a cut. It gives its memory back without recursion.
pub struct Branch<P>(Box<TreeOf<P>>);

/// A tree in preorder.
#[derive(Clone, Debug, Default, PartialEq, Eq)]
pub struct PlanOf<P> {
    /// The kind of each node.
    pub kinds: Vec<u8>,
    /// The operand of each node: a position, the number of a kind, or 0.
    pub operands: Vec<P>,
}

/// A tree in the units of a job.
pub type Tree = TreeOf<u16>;

/// A tree at true sizes.
pub type TrueTree = TreeOf<u32>;

/// A plan in the units of a job.
pub type Plan = PlanOf<u16>;

/// A plan at true sizes.
pub type TruePlan = PlanOf<u32>;

/// A plate of a rack, and what becomes of it.
#[derive(Clone, Debug, PartialEq, Eq)]
pub struct Plate {
    /// The plate's length.
    pub length: u16,
    /// The plate's width.
    pub width: u16,
    /// What becomes of it.
    pub tree: Tree,
}

const WASTE: u8 = 0;
const PIECE: u8 = 1;
const CUT_OF_LENGTH: u8 = 2;
const CUT_OF_WIDTH: u8 = 3;
const TURNED_PIECE: u8 = 4;

impl<P> Branch<P> {
    /// The tree itself.
    pub fn into_tree(mut self) -> TreeOf<P> {
        mem::replace(&mut self.0, TreeOf::Waste)
    }
}

impl<P> From<TreeOf<P>> for Branch<P> {
    fn from(tree: TreeOf<P>) -> Branch<P> {
        Branch(Box::new(tree))
    }
}

impl<P> Deref for Branch<P> {
    type Target = TreeOf<P>;

    fn deref(&self) -> &TreeOf<P> {
        &self.0
    }
}

impl<P> DerefMut for Branch<P> {
    fn deref_mut(&mut self) -> &mut TreeOf<P> {
        &mut self.0
    }
}

impl<P> Drop for Branch<P> {
    /// Takes the cuts below apart one by one, so that each branch that ends here has none below it.
    fn drop(&mut self) {
        let mut waiting = Vec::new();
        let mut next = Some(mem::replace(&mut *self.0, TreeOf::Waste));
        while let Some(tree) = next {
            if let TreeOf::Cut { first, second, .. } = tree {
                waiting.extend([second.into_tree(), first.into_tree()]);
            }
            next = waiting.pop();
        }
    }
}

impl<P> TreeOf<P> {
    /// A cut of a rectangle.
    pub fn cut(direction: Direction, at: P, first: TreeOf<P>, second: TreeOf<P>) -> TreeOf<P> {
        TreeOf::Cut { direction, at, first: first.into(), second: second.into() }
    }

    /// All nodes in preorder: the numbers that refusals give.
    pub fn nodes(&self) -> Vec<&TreeOf<P>> {
        let (mut nodes, mut waiting) = (Vec::new(), vec![self]);
        while let Some(tree) = waiting.pop() {
            nodes.push(tree);
            if let TreeOf::Cut { first, second, .. } = tree {
                waiting.extend([&**second, &**first]);
            }
        }
        nodes
    }
}

impl<P: Operand> TreeOf<P> {
    /// The tree as a plan.
    pub fn plan(&self) -> PlanOf<P> {
        PlanOf::of_trees([self])
    }

    /// The node as the arrays have it.
    fn node(&self) -> (u8, P) {
        match self {
            TreeOf::Waste => (WASTE, P::from(0)),
            TreeOf::Piece { kind, turned: false } => (PIECE, P::from(*kind)),
            TreeOf::Piece { kind, turned: true } => (TURNED_PIECE, P::from(*kind)),
            TreeOf::Cut { direction: Direction::Length, at, .. } => (CUT_OF_LENGTH, *at),
            TreeOf::Cut { direction: Direction::Width, at, .. } => (CUT_OF_WIDTH, *at),
        }
    }
}

impl<P: Operand> Clone for TreeOf<P> {
    fn clone(&self) -> TreeOf<P> {
        self.plan().tree().expect("the plan of a tree")
    }
}

impl<P: Operand> PartialEq for TreeOf<P> {
    fn eq(&self, other: &TreeOf<P>) -> bool {
        let mut waiting = Vec::new();
        let mut next = Some((self, other));
        while let Some((tree, other)) = next {
            if tree.node() != other.node() {
                return false;
            }
            if let (TreeOf::Cut { first, second, .. }, TreeOf::Cut { first: f, second: s, .. }) =
                (tree, other)
            {
                waiting.extend([(&**second, &**s), (&**first, &**f)]);
            }
            next = waiting.pop();
        }
        true
    }
}

impl<P: Operand> Eq for TreeOf<P> {}

impl<P: Operand> fmt::Debug for TreeOf<P> {
    fn fmt(&self, f: &mut fmt::Formatter) -> fmt::Result {
        f.debug_list().entries(self.nodes().into_iter().map(TreeOf::node)).finish()
    }
}

impl<P: Operand> PlanOf<P> {
    /// Trees one after another, as a rack has them.
    pub fn of_trees<'a>(trees: impl IntoIterator<Item = &'a TreeOf<P>>) -> PlanOf<P>
    where
        P: 'a,
    {
        let nodes = trees.into_iter().flat_map(TreeOf::nodes).map(TreeOf::node);
        let (kinds, operands) = nodes.unzip();
        PlanOf { kinds, operands }
    }

    /// The tree, if the arrays are the preorder of one and of no more.
    pub fn tree(&self) -> Option<TreeOf<P>> {
        if self.kinds.len() != self.operands.len() {
            return None;
        }
        let mut trees = Vec::new();
        for (kind, operand) in self.kinds.iter().zip(&self.operands).rev() {
            let tree = above(*kind, *operand, &mut trees)?;
            trees.push(tree);
        }
        trees.pop().filter(|_| trees.is_empty())
    }
}

/// The tree whose first node this is, and of which the next ones wait, the first part last.
fn above<P: Operand>(kind: u8, operand: P, trees: &mut Vec<TreeOf<P>>) -> Option<TreeOf<P>> {
    let mut cut = |direction| Some(TreeOf::cut(direction, operand, trees.pop()?, trees.pop()?));
    let piece = |turned| Some(TreeOf::Piece { kind: operand.try_into().ok()?, turned });
    match kind {
        WASTE => Some(TreeOf::Waste),
        PIECE => piece(false),
        TURNED_PIECE => piece(true),
        CUT_OF_LENGTH => cut(Direction::Length),
        CUT_OF_WIDTH => cut(Direction::Width),
        _ => None,
    }
}

impl Plan {
    /// The plan as a block.
    pub fn block(&self) -> Vec<u8> {
        plan_block(&self.kinds, &self.operands)
    }

    /// The plan of a block, if it has as many bytes as its node count says.
    pub fn from_block(block: &[u8]) -> Option<Plan> {
        let (count, rest) = block.split_first_chunk::<2>()?;
        let count = usize::from(u16::from_le_bytes(*count));
        if rest.len() != 3 * count {
            return None;
        }
        let (kinds, operands) = rest.split_at(count);
        let operands = operands.chunks_exact(2).map(|two| u16::from_le_bytes([two[0], two[1]]));
        Some(Plan { kinds: kinds.to_vec(), operands: operands.collect() })
    }
}
