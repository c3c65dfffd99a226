// A plan replayed on its board as the saw does it: where every panel, every rest and every cut lies, in thousandths
// of a millimetre from the board's corner. Cuts are numbered from 1 in the order of sawing: a cut, then its first
// part, then its second. A layout is made only of a plan whose every panel comes off at exactly its size.
use crate::millimetres::Millimetres;
use crate::order::Order;
use crate::plan::{axis, lying, parts, Direction, Saw, Sides, Tree};
use std::fmt;

/// A rectangle on the board. `x` runs along the length, `y` along the width.
#[derive(Clone, Copy, Debug, PartialEq, Eq)]
pub struct Rect {
    pub x: u32,
    pub y: u32,
    pub length: u32,
    pub width: u32,
}

/// What a part of a cut becomes.
#[derive(Clone, Copy, Debug, PartialEq, Eq)]
pub enum Use {
    /// It is cut further, by the cut of this number.
    Cut(usize),
    Panel {
        panel: usize,
        turned: bool,
    },
    Rest,
}

/// A part: its rectangle and what becomes of it.
#[derive(Clone, Copy, Debug, PartialEq, Eq)]
pub struct Part {
    pub rect: Rect,
    pub becomes: Use,
}

/// A cut of a rectangle at a fence setting, the size of the first part. The blade takes what lies between the parts,
/// or all that is left where there is no second.
#[derive(Clone, Copy, Debug)]
pub struct Cut {
    pub of: Rect,
    pub direction: Direction,
    pub at: u32,
    pub first: Part,
    pub second: Option<Part>,
}

/// A panel as it lies on the board, in exactly its size.
#[derive(Clone, Copy, Debug, PartialEq, Eq)]
pub struct Laid {
    pub panel: usize,
    pub turned: bool,
    pub rect: Rect,
}

/// Everything on the board. The cut of number n is at n - 1.
#[derive(Clone, Debug)]
pub struct Layout {
    pub board: Part,
    pub kerf: u32,
    pub cuts: Vec<Cut>,
    pub panels: Vec<Laid>,
    pub rests: Vec<Rect>,
}

/// What the saw cannot do, at the node of this number, from 0 as the tree is written.
#[derive(Clone, Copy, Debug, PartialEq, Eq)]
pub struct Misfit {
    pub node: usize,
    pub why: Why,
}

#[derive(Clone, Copy, Debug, PartialEq, Eq)]
pub enum Why {
    /// The setting is 0 or not below the side.
    OffTheSide { direction: Direction, at: u32, side: u32 },
    /// A second part is named, and the blade reaches the end of the side.
    NoSecond { direction: Direction, at: u32, side: u32 },
    /// No second part is named, and so much is left.
    SecondLeft { direction: Direction, at: u32, left: u32 },
    /// The panel's rectangle is not its size.
    WrongSize { panel: usize, is: Sides, wanted: Sides },
}

impl Layout {
    /// Replays a tree on a board.
    pub fn new(saw: &Saw, sides: Sides, tree: &Tree) -> Result<Layout, Misfit> {
        let rect = Rect { x: 0, y: 0, length: sides[0], width: sides[1] };
        let board = Part { rect, becomes: Use::Rest };
        let (cuts, panels, rests) = (Vec::new(), Vec::new(), Vec::new());
        let mut layout = Layout { board, kerf: saw.kerf, cuts, panels, rests };
        let becomes = layout.put(saw, tree, rect, &mut 0)?;
        layout.board.becomes = becomes;
        Ok(layout)
    }

    fn put(&mut self, saw: &Saw, tree: &Tree, rect: Rect, next: &mut usize) -> Result<Use, Misfit> {
        let node = *next;
        *next += 1;
        let misfit = |why| Err(Misfit { node, why });
        match *tree {
            Tree::Rest => {
                self.rests.push(rect);
                Ok(Use::Rest)
            }
            Tree::Panel { panel, turned } => {
                let wanted = lying(saw.panels[panel], turned);
                if rect.sides() != wanted {
                    return misfit(Why::WrongSize { panel, is: rect.sides(), wanted });
                }
                self.panels.push(Laid { panel, turned, rect });
                Ok(Use::Panel { panel, turned })
            }
            Tree::Cut { direction, at, ref first, ref second } => {
                let side = rect.sides()[axis(direction)];
                let Some((_, left)) = parts(side, at, saw.kerf) else {
                    return misfit(Why::OffTheSide { direction, at, side });
                };
                let rests = match (second, left) {
                    (Some(_), None) => return misfit(Why::NoSecond { direction, at, side }),
                    (None, Some(left)) => return misfit(Why::SecondLeft { direction, at, left }),
                    (None, None) => None,
                    (Some(second), Some(left)) => Some((second, rect.part(direction, at + saw.kerf, left))),
                };
                let number = self.cuts.len() + 1;
                let part = |rect| Part { rect, becomes: Use::Rest };
                let first_rect = rect.part(direction, 0, at);
                let second_part = rests.as_ref().map(|(_, rect)| part(*rect));
                let cut = Cut { of: rect, direction, at, first: part(first_rect), second: second_part };
                self.cuts.push(cut);
                self.cuts[number - 1].first.becomes = self.put(saw, first, first_rect, next)?;
                if let Some((second, rect)) = rests {
                    let becomes = self.put(saw, second, rect, next)?;
                    self.cuts[number - 1].second = Some(Part { rect, becomes });
                }
                Ok(Use::Cut(number))
            }
        }
    }

    /// The areas of panels, rests and sawdust, in square thousandths of a millimetre.
    pub fn areas(&self) -> [u64; 3] {
        let panels = self.panels.iter().map(|laid| laid.rect.area()).sum();
        let rests = self.rests.iter().map(Rect::area).sum();
        [panels, rests, self.board.rect.area() - panels - rests]
    }

    /// The copies of each panel of an order of so many.
    pub fn copies(&self, panels: usize) -> Vec<u32> {
        let mut copies = vec![0; panels];
        self.panels.iter().for_each(|laid| copies[laid.panel] += 1);
        copies
    }

    /// The rest of the greatest area.
    pub fn largest_rest(&self) -> Option<Rect> {
        self.rests.iter().copied().max_by_key(Rect::area)
    }
}

impl Rect {
    pub fn sides(&self) -> Sides {
        [self.length, self.width]
    }

    pub fn area(&self) -> u64 {
        u64::from(self.length) * u64::from(self.width)
    }

    /// Whether it lies on a board of these sides, so far from every edge.
    pub fn is_within(&self, [length, width]: Sides, edge: u32) -> bool {
        let far = [self.x + self.length + edge, self.y + self.width + edge];
        self.x >= edge && self.y >= edge && far[0] <= length && far[1] <= width
    }

    /// The part from so far along a direction, of this size.
    fn part(self, direction: Direction, from: u32, size: u32) -> Rect {
        match direction {
            Direction::Length => Rect { x: self.x + from, length: size, ..self },
            Direction::Width => Rect { y: self.y + from, width: size, ..self },
        }
    }

    /// `1200 x 600`, in millimetres.
    pub fn size(&self) -> String {
        size(self.sides())
    }
}

impl Cut {
    /// What the blade takes.
    pub fn blade(&self) -> Rect {
        let side = self.of.sides()[axis(self.direction)];
        let end = self.second.map_or(side, |second| side - second.rect.sides()[axis(self.direction)]);
        self.of.part(self.direction, self.at, end - self.at)
    }
}

/// Sides as `1200 x 600`, in millimetres.
pub fn size([length, width]: Sides) -> String {
    format!("{} x {}", Millimetres::of_thousandths(length), Millimetres::of_thousandths(width))
}

/// The word for a direction.
pub fn side_word(direction: Direction) -> &'static str {
    match direction {
        Direction::Length => "length",
        Direction::Width => "width",
    }
}

impl Misfit {
    /// What is wrong, with the name of the panel.
    pub fn in_order(&self, order: &Order) -> String {
        match self.why {
            Why::WrongSize { panel, is, wanted } => {
                let (name, wanted, is) = (&order.panels[panel].name, size(wanted), size(is));
                format!("node {}, {name}: a panel of {wanted} does not fit a part of {is}", self.node)
            }
            _ => self.to_string(),
        }
    }
}

impl fmt::Display for Misfit {
    fn fmt(&self, f: &mut fmt::Formatter) -> fmt::Result {
        let mm = Millimetres::of_thousandths;
        write!(f, "node {}, ", self.node)?;
        match self.why {
            Why::OffTheSide { direction, at, side } => {
                let (word, at, side) = (side_word(direction), mm(at), mm(side));
                write!(f, "the cut of the {word} at {at}: it is not within the side of {side}")
            }
            Why::NoSecond { direction, at, side } => {
                let (word, at, side) = (side_word(direction), mm(at), mm(side));
                write!(f, "the cut of the {word} at {at}: the blade leaves no second part of {side}")
            }
            Why::SecondLeft { direction, at, left } => {
                let (word, at, left) = (side_word(direction), mm(at), mm(left));
                write!(f, "the cut of the {word} at {at}: a second part of {left} is left, and none is named")
            }
            Why::WrongSize { is, wanted, .. } => {
                write!(f, "a panel of {} does not fit a part of {}", size(wanted), size(is))
            }
        }
    }
}
