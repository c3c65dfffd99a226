// A judged plan of an order, as it is given: in words, as a drawing, for machines and as a stamp. Everything that is
// printed, drawn or filed is made from this.
use crate::layout::{Layout, Misfit, Rect};
use crate::order::{Order, Plate};
use crate::plan::{Direction, Saw, Sides, Tree};
use crate::verdict::Verdict;
use crate::{Modelled, Packing, Task};

/// A board that is cut: the line of the stock that it is of, its plan and where everything lies on it.
#[derive(Clone, Debug)]
pub struct Board {
    pub plate: usize,
    pub tree: Tree,
    pub layout: Layout,
}

#[derive(Clone, Debug)]
pub struct Outcome {
    pub order: Order,
    /// One board was planned, or else the whole order.
    pub one: bool,
    /// In the order of sawing; the last has the largest rest.
    pub boards: Vec<Board>,
    pub verdict: Verdict,
    /// What the verdict's bounds follow from.
    pub evidence: Vec<Modelled>,
}

/// Rests at least so long and so wide are worth keeping, in thousandths of a millimetre.
const KEPT: u32 = 100_000;

impl Board {
    /// The board of a tree, if every panel comes off at its size.
    pub fn new(order: &Order, plate: usize, tree: Tree) -> Result<Board, Misfit> {
        let panels = order.panel_sides();
        let saw = Saw { kerf: order.kerf(), panels: &panels };
        let layout = Layout::new(&saw, order.plates[plate].sides(), &tree)?;
        Ok(Board { plate, tree, layout })
    }

    /// The panels on the board, each once, in the order of their lines.
    pub fn panels(&self) -> Vec<usize> {
        let mut panels: Vec<usize> = self.layout.panels.iter().map(|laid| laid.panel).collect();
        panels.sort_unstable();
        panels.dedup();
        panels
    }
}

/// The boards of a packing, each copy of a kind named as a panel of the order.
pub fn boards(order: &Order, task: &Task, packing: &Packing) -> Vec<Board> {
    let mut left: Vec<u32> = order.panels.iter().map(|panel| panel.count).collect();
    let mut next = |kind: usize| {
        let lines = &task.kinds[kind].panels;
        let line = lines.iter().copied().find(|line| left[*line] > 0).unwrap_or(lines[0]);
        left[line] = left[line].saturating_sub(1);
        line
    };
    let panels = order.panel_sides();
    let saw = Saw { kerf: order.kerf(), panels: &panels };
    let board = |board: &crate::board::Board| {
        let plate = &order.plates[board.stock];
        let tree = board.tree(&saw, order.usable(plate), &mut next);
        Board::new(order, board.stock, edged(order, plate, tree)).expect("a packing that can be sawn")
    };
    packing.boards.iter().filter(|board| !board.is_empty()).map(board).collect()
}

/// The tree with the raw edges of its plate taken off first.
fn edged(order: &Order, plate: &Plate, tree: Tree) -> Tree {
    let trim = order.trim.thousandths();
    if trim == 0 || plate.offcut {
        return tree;
    }
    let [length, width] = order.usable(plate);
    let near = trim - order.kerf();
    let far = |direction, at, tree| Tree::cut(direction, at, tree, Some(Tree::Rest));
    let whole = |direction, at, tree| Tree::cut(direction, near, Tree::Rest, Some(far(direction, at, tree)));
    whole(Direction::Length, length, whole(Direction::Width, width, tree))
}

impl Outcome {
    pub fn sentence(&self) -> String {
        self.verdict.sentence()
    }

    /// The copies of each panel that are cut.
    pub fn copies(&self) -> Vec<u32> {
        let mut copies = vec![0; self.order.panels.len()];
        for laid in self.boards.iter().flat_map(|board| &board.layout.panels) {
            copies[laid.panel] += 1;
        }
        copies
    }

    /// The sides of a board as it comes from the stock.
    pub fn sides(&self, board: &Board) -> Sides {
        self.order.plates[board.plate].sides()
    }

    /// Panels, rests and sawdust of all boards, in tenths of a per cent of them.
    pub fn shares(&self) -> [(&'static str, u128); 3] {
        let mut areas = [0u128; 3];
        for board in &self.boards {
            areas.iter_mut().zip(board.layout.areas()).for_each(|(all, area)| *all += u128::from(area));
        }
        let all = areas.iter().sum::<u128>().max(1);
        let share = |area: u128| (1000 * area + all / 2) / all;
        [("used", share(areas[0])), ("rests", share(areas[1])), ("sawdust", share(areas[2]))]
    }

    /// What the panels that are cut are worth: their prices, or their area.
    pub fn worth(&self) -> String {
        let task = Task::new(&self.order);
        let copies = self.copies();
        let worth: u128 = task
            .kinds
            .iter()
            .zip(&task.worths)
            .map(|(kind, worth)| {
                let cut: u128 = kind.panels.iter().map(|panel| u128::from(copies[*panel])).sum();
                cut * u128::from(*worth)
            })
            .sum();
        worth_in_words(&self.order, worth)
    }
}

/// A worth as it is read: prices as they are, area in square metres.
pub fn worth_in_words(order: &Order, worth: u128) -> String {
    if order.is_priced() {
        return worth.to_string();
    }
    let thousandths = (worth + 500_000_000) / 1_000_000_000;
    format!("{}.{:03} square metres", thousandths / 1000, thousandths % 1000)
}

/// Whether a rest is worth keeping.
pub fn is_kept(rest: &Rect) -> bool {
    rest.length >= KEPT && rest.width >= KEPT
}
