// The plan of a board as a tree of saw cuts at true sizes. All lengths are thousandths of a millimetre. A cut stands
// at a fence setting: the size of its first part. The blade takes the kerf after it; what is left is the second part.
pub use planner::Direction;
use std::mem;
use std::ops::Deref;

/// Length and width.
pub type Sides = [u32; 2];

/// What becomes of a rectangle.
#[derive(Clone, Debug, PartialEq, Eq)]
pub enum Tree {
    /// It is left over.
    Rest,
    /// It is a panel of the order, by its line. In a sawn tree the rectangle is exactly the panel's.
    Panel { panel: usize, turned: bool },
    /// It is cut. There is no second part where setting and kerf reach the end of the side: the blade only shaves.
    Cut { direction: Direction, at: u32, first: Branch, second: Option<Branch> },
}

/// A tree below a cut. It gives its memory back without recursion, for plans may be deep.
#[derive(Clone, Debug, PartialEq, Eq)]
pub struct Branch(Box<Tree>);

impl Branch {
    pub fn into_tree(mut self) -> Tree {
        self.take()
    }

    /// The tree; a rest stands in its place.
    fn take(&mut self) -> Tree {
        mem::replace(&mut *self.0, Tree::Rest)
    }
}

impl From<Tree> for Branch {
    fn from(tree: Tree) -> Branch {
        Branch(Box::new(tree))
    }
}

impl Deref for Branch {
    type Target = Tree;

    fn deref(&self) -> &Tree {
        &self.0
    }
}

impl Drop for Branch {
    fn drop(&mut self) {
        let mut waiting = Vec::new();
        let mut next = Some(self.take());
        while let Some(mut tree) = next {
            if let Tree::Cut { first, second, .. } = &mut tree {
                waiting.push(first.take());
                waiting.extend(second.as_mut().map(Branch::take));
            }
            next = waiting.pop();
        }
    }
}

/// The number of a direction in `Sides`.
pub fn axis(direction: Direction) -> usize {
    match direction {
        Direction::Length => 0,
        Direction::Width => 1,
    }
}

pub fn direction(axis: usize) -> Direction {
    [Direction::Length, Direction::Width][axis]
}

/// The sides of a panel as it lies.
pub fn lying([length, width]: Sides, turned: bool) -> Sides {
    if turned {
        [width, length]
    } else {
        [length, width]
    }
}

/// The sizes of both parts of a side that is cut: the second is none where the blade reaches the end, and the whole
/// is none where the setting is 0 or not below the side.
pub fn parts(side: u32, at: u32, kerf: u32) -> Option<(u32, Option<u32>)> {
    let second = side.checked_sub(at)?.checked_sub(1)?;
    (at > 0).then_some((at, (second + 1).checked_sub(kerf).filter(|size| *size > 0)))
}

/// A saw and the panels that it cuts.
#[derive(Clone, Debug)]
pub struct Saw<'a> {
    pub kerf: u32,
    /// The sides of each panel of the order.
    pub panels: &'a [Sides],
}

impl Saw<'_> {
    /// Cuts a rectangle down to smaller sides and makes `tree` of what is left: one cut a side that is larger. Of the
    /// two orders that one is taken which leaves the greater rest whole.
    pub fn trimmed(&self, from: Sides, to: Sides, tree: Tree) -> Tree {
        let rest = |axis: usize| u64::from((from[axis] - to[axis]).saturating_sub(self.kerf));
        let length_first = rest(0) * u64::from(from[1]) >= rest(1) * u64::from(from[0]);
        let [first, last] = if length_first { [0, 1] } else { [1, 0] };
        let inner = self.trimmed_side(from[last], to[last], last, tree);
        self.trimmed_side(from[first], to[first], first, inner)
    }

    fn trimmed_side(&self, from: u32, to: u32, axis: usize, tree: Tree) -> Tree {
        if from <= to {
            return tree;
        }
        let second = (from - to > self.kerf).then_some(Tree::Rest);
        Tree::cut(direction(axis), to, tree, second)
    }

    /// The tree with every cut that brings a panel to its size; panels that do not fit their rectangle stay as they
    /// are, for the layout to refuse.
    pub fn sawn(&self, tree: Tree, sides: Sides) -> Tree {
        match tree {
            Tree::Rest => Tree::Rest,
            Tree::Panel { panel, turned } => {
                let own = self.panels.get(panel).map_or(sides, |own| lying(*own, turned));
                let fits = own[0] <= sides[0] && own[1] <= sides[1];
                let leaf = Tree::Panel { panel, turned };
                if fits {
                    self.trimmed(sides, own, leaf)
                } else {
                    leaf
                }
            }
            Tree::Cut { direction, at, first, second } => {
                let axis = axis(direction);
                let Some((_, rest)) = parts(sides[axis], at, self.kerf) else {
                    return Tree::Cut { direction, at, first, second };
                };
                let part = |size: u32| {
                    let mut part = sides;
                    part[axis] = size;
                    part
                };
                let first = self.sawn(first.into_tree(), part(at)).into();
                let second = match (second, rest) {
                    (Some(second), Some(size)) => Some(self.sawn(second.into_tree(), part(size)).into()),
                    (second, _) => second,
                };
                Tree::Cut { direction, at, first, second }
            }
        }
    }
}

impl Tree {
    pub fn cut(direction: Direction, at: u32, first: Tree, second: Option<Tree>) -> Tree {
        Tree::Cut { direction, at, first: first.into(), second: second.map(Branch::from) }
    }

    /// The panels of the tree, by their lines.
    pub fn panels(&self) -> Vec<usize> {
        let (mut panels, mut waiting) = (Vec::new(), vec![self]);
        while let Some(tree) = waiting.pop() {
            match tree {
                Tree::Rest => {}
                Tree::Panel { panel, .. } => panels.push(*panel),
                Tree::Cut { first, second, .. } => {
                    waiting.push(first);
                    waiting.extend(second.as_deref());
                }
            }
        }
        panels
    }

    /// How often the direction of sawing changes on the longest path, counting the first as one.
    pub fn stages(&self) -> u32 {
        fn below(tree: &Tree, above: Option<Direction>) -> u32 {
            match tree {
                Tree::Cut { direction, first, second, .. } => {
                    let second = second.as_ref().map_or(0, |second| below(second, Some(*direction)));
                    u32::from(above != Some(*direction)) + second.max(below(first, Some(*direction)))
                }
                _ => 0,
            }
        }
        below(self, None)
    }
}
