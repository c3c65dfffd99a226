// A board of the search: a slicing tree of panels without rests. A node knows what its panels use and the room that it
// may grow to; what is not used moves by itself when panels come and go. All sizes have the kerf added, so that sums
// need no care for the blade. They are thousandths of a millimetre of at most 101 metres, so that two of them add up
// within 32 bits.
use super::dice::Dice;
use crate::plan::{direction, Saw, Sides, Tree};
use planner::Plan;

pub const NONE: u32 = u32::MAX;

/// What a node is: a panel, or a cut of the length (0) or the width (1).
const PANEL: u8 = 2;

#[derive(Clone, Copy, Debug)]
pub struct Node {
    cut: u8,
    turned: bool,
    kind: u16,
    /// Stages of sawing above this node, and from it on: counted only where they are limited.
    above: u8,
    stages: u8,
    parts: [u32; 2],
    up: u32,
    used: [i32; 2],
    room: [i32; 2],
}

#[derive(Clone, Debug)]
pub struct Board {
    /// The line of the stock that it is of.
    pub stock: usize,
    pub room: [i32; 2],
    pub limit: Option<u8>,
    nodes: Vec<Node>,
    root: u32,
    pub filled: i64,
    /// The most that any node may grow along the length and along the width.
    free: [i32; 2],
}

/// A place for a panel: beside a node, in a direction. The least score is best.
#[derive(Clone, Copy, Debug)]
pub struct Place {
    score: i64,
    beside: u32,
    cut: u8,
}

/// How places are scored.
#[derive(Clone, Copy, Debug)]
pub enum Score {
    /// The lesser of what is left along and across.
    LeastSlack,
    /// The area of what is left.
    LeastVoid,
    /// Sizes that are equal across.
    EqualWidth,
}

impl Place {
    pub const NOWHERE: Place = Place { score: i64::MAX, beside: NONE, cut: 0 };
}

impl Score {
    fn of(self, room: [i32; 2], panel: [i32; 2], cut: usize, used: [i32; 2]) -> i64 {
        let across = 1 - cut;
        let along = i64::from(room[cut] - used[cut] - panel[cut]);
        let beside = i64::from(room[across] - panel[across]);
        match self {
            Score::LeastSlack => along.min(beside) * 4096 + along.max(beside) / 16,
            Score::LeastVoid => {
                i64::from(room[cut] - used[cut]) * i64::from(room[across])
                    - i64::from(panel[0]) * i64::from(panel[1])
            }
            Score::EqualWidth => {
                let unequal = i64::from((used[across] - panel[across]).abs());
                let first = if used[cut] == 0 { beside } else { 0 };
                along.min(unequal + first) * 4096 + beside / 16
            }
        }
    }
}

impl Board {
    pub fn new(stock: usize, room: [i32; 2], limit: Option<u32>) -> Board {
        let limit = limit.map(|limit| limit as u8);
        Board { stock, room, limit, nodes: Vec::new(), root: NONE, filled: 0, free: [0; 2] }
    }

    pub fn is_empty(&self) -> bool {
        self.root == NONE
    }

    pub fn len(&self) -> usize {
        self.nodes.len()
    }

    pub fn area(&self) -> i64 {
        i64::from(self.room[0]) * i64::from(self.room[1])
    }

    pub fn used(&self) -> [i32; 2] {
        if self.is_empty() {
            [0; 2]
        } else {
            self.nodes[self.root as usize].used
        }
    }

    pub fn root(&self) -> u32 {
        self.root
    }

    /// The kinds of the panels in and below a node.
    pub fn kinds_at(&self, node: u32) -> Vec<usize> {
        let (mut kinds, mut waiting) = (Vec::new(), vec![node]);
        while let Some(node) = waiting.pop().filter(|node| *node != NONE) {
            let node = &self.nodes[node as usize];
            if node.cut == PANEL {
                kinds.push(usize::from(node.kind));
            } else {
                waiting.extend(node.parts);
            }
        }
        kinds
    }

    pub fn kinds(&self) -> Vec<usize> {
        self.kinds_at(self.root)
    }

    /// How many nodes may be looked at for a place for a panel.
    pub fn looks(&self, panel: [i32; 2]) -> u64 {
        let none = panel[0] > self.free[0] && panel[1] > self.free[1];
        if none {
            0
        } else {
            self.nodes.len() as u64
        }
    }

    /// Looks for a place for a panel that scores less than the best so far. Now and then one is overlooked.
    pub fn place(&self, panel: [i32; 2], score: Score, dice: &mut Dice, best: &mut Place) -> bool {
        let mut found = false;
        if self.is_empty() && panel[0] <= self.room[0] && panel[1] <= self.room[1] {
            let scores = [0, 1].map(|cut| score.of(self.room, panel, cut, [0; 2]));
            let score = scores[0].min(scores[1]);
            if score < best.score && self.single_stages(panel) <= self.most_stages() {
                *best = Place { score, beside: 0, cut: 0 };
                found = true;
            }
        }
        if self.looks(panel) == 0 {
            return found;
        }
        for (index, node) in self.nodes.iter().enumerate() {
            let up = if node.up == NONE { PANEL } else { self.nodes[node.up as usize].cut };
            for cut in 0..2 {
                let across = 1 - cut;
                if up == cut as u8
                    || node.used[cut] + panel[cut] > node.room[cut]
                    || panel[across] > node.room[across]
                {
                    continue;
                }
                let score = score.of(node.room, panel, cut, node.used);
                if score < best.score && dice.next() & 127 != 0 && self.keeps_stages(node, panel, cut) {
                    *best = Place { score, beside: index as u32, cut: cut as u8 };
                    found = true;
                }
            }
        }
        found
    }

    fn most_stages(&self) -> u8 {
        self.limit.unwrap_or(u8::MAX)
    }

    /// The stages of a board with one panel: a cut for each side that is larger.
    fn single_stages(&self, panel: [i32; 2]) -> u8 {
        u8::from(panel[0] < self.room[0]) + u8::from(panel[1] < self.room[1])
    }

    /// Whether a panel beside a node passes no limit on the stages. A panel that is narrower than its part takes one
    /// more stage.
    fn keeps_stages(&self, node: &Node, panel: [i32; 2], cut: usize) -> bool {
        let Some(limit) = self.limit else { return true };
        let across = 1 - cut;
        let wide = if node.up == NONE { self.room[across] } else { node.used[across].max(panel[across]) };
        let here = node.above + 1;
        let own = here + u8::from(panel[across] < wide);
        let beside = match node.cut {
            PANEL => here + u8::from(node.used[across] < wide),
            same if usize::from(same) == cut => {
                (node.above + node.stages).max(here + u8::from(node.used[across] < wide))
            }
            _ => here + node.stages,
        };
        own.max(beside) <= limit
    }

    pub fn put(&mut self, kind: usize, turned: bool, used: [i32; 2], place: Place, spare: &mut Vec<Node>) {
        self.rebuild(NONE, Some((place, leaf(kind, turned, used))), spare);
    }

    /// An empty board with the panels of a plan of its model; none where they do not fit or pass the limit on stages.
    /// `panel` gives the kind and the sides of a panel of the plan, and none where it is to be left out.
    pub fn with_plan(
        &self,
        plan: &Plan,
        panel: &mut dyn FnMut(u16, bool) -> Option<(usize, [i32; 2])>,
    ) -> Option<Board> {
        let (mut nodes, mut waiting) = (Vec::new(), Vec::new());
        for (node, operand) in plan.kinds.iter().zip(&plan.operands).rev() {
            let made = match node {
                0 => NONE,
                1 | 4 => panel(*operand, *node == 4)
                    .map_or(NONE, |(kind, used)| push(leaf(kind, *node == 4, used), &mut nodes)),
                cut => match [waiting.pop()?, waiting.pop()?] {
                    [NONE, part] | [part, NONE] => part,
                    parts => join(cut - 2, parts, &mut nodes),
                },
            };
            waiting.push(made);
        }
        let mut board = Board { nodes, root: waiting.pop()?, ..self.clone() };
        board.settle();
        let used = board.used();
        let fits = used[0] <= board.room[0] && used[1] <= board.room[1];
        (fits && board.stages() <= board.most_stages()).then_some(board)
    }

    /// The stages of sawing, where they are limited.
    fn stages(&self) -> u8 {
        self.nodes.get(self.root as usize).map_or(0, |root| root.stages)
    }

    /// Takes a node out; its sibling takes their parent's place.
    pub fn take(&mut self, node: u32, spare: &mut Vec<Node>) {
        self.rebuild(node, None, spare);
    }

    fn rebuild(&mut self, without: u32, with: Option<(Place, Node)>, spare: &mut Vec<Node>) {
        spare.clear();
        self.root = match with {
            Some((_, leaf)) if self.is_empty() => push(leaf, spare),
            _ if self.is_empty() => NONE,
            _ => self.copy(self.root, without, &with, spare),
        };
        std::mem::swap(&mut self.nodes, spare);
        self.settle();
    }

    /// What follows from the nodes: rooms, what is filled, and stages where they are limited.
    fn settle(&mut self) {
        self.filled = 0;
        if self.root == NONE {
            self.nodes.clear();
            return;
        }
        self.give_rooms();
        if self.limit.is_some() {
            self.count_stages();
        }
    }

    /// Copies a node and all below it, parts before what they are parts of.
    fn copy(&self, node: u32, without: u32, with: &Option<(Place, Node)>, to: &mut Vec<Node>) -> u32 {
        if node == without {
            return NONE;
        }
        let old = self.nodes[node as usize];
        let mut copied = if old.cut == PANEL {
            push(old, to)
        } else {
            match old.parts.map(|part| self.copy(part, without, with, to)) {
                [NONE, part] | [part, NONE] => part,
                parts => join(old.cut, parts, to),
            }
        };
        if let Some((place, leaf)) = with.as_ref().filter(|(place, _)| place.beside == node) {
            let leaf = push(*leaf, to);
            copied = join(place.cut, [copied, leaf], to);
        }
        copied
    }

    /// The room of every node, from the root down: its parent's, along the cut less what its sibling uses.
    fn give_rooms(&mut self) {
        let root = self.root as usize;
        self.nodes[root].up = NONE;
        self.nodes[root].room = self.room;
        self.free = [0; 2];
        for index in (0..self.nodes.len()).rev() {
            let node = self.nodes[index];
            for (axis, free) in self.free.iter_mut().enumerate() {
                *free = (*free).max(node.room[axis] - node.used[axis]);
            }
            if node.cut == PANEL {
                self.filled += i64::from(node.used[0]) * i64::from(node.used[1]);
                continue;
            }
            let cut = usize::from(node.cut);
            let uses = node.parts.map(|part| self.nodes[part as usize].used[cut]);
            for (part, other) in [(node.parts[0], uses[1]), (node.parts[1], uses[0])] {
                let part = &mut self.nodes[part as usize];
                part.room = node.room;
                part.room[cut] -= other;
            }
        }
    }

    /// The stages above every node and from it on.
    fn count_stages(&mut self) {
        let mut across = vec![0; self.nodes.len()];
        for index in (0..self.nodes.len()).rev() {
            let node = self.nodes[index];
            if node.up == NONE {
                self.nodes[index].above = 0;
            }
            if node.cut == PANEL {
                continue;
            }
            let (side, parent) = (1 - usize::from(node.cut), node.up);
            let same = parent != NONE && self.nodes[parent as usize].cut == node.cut;
            across[index] = match parent {
                NONE => self.room[side],
                parent if same => across[parent as usize],
                _ => node.used[side],
            };
            let above = self.nodes[index].above + u8::from(!same);
            node.parts.iter().for_each(|part| self.nodes[*part as usize].above = above);
        }
        for index in 0..self.nodes.len() {
            let node = self.nodes[index];
            self.nodes[index].stages = if node.cut != PANEL {
                let deepest = node.parts.map(|part| {
                    let part = &self.nodes[part as usize];
                    u8::from(part.cut != node.cut) * part.stages
                        + u8::from(part.cut == node.cut) * (part.stages - 1)
                });
                1 + deepest[0].max(deepest[1])
            } else if node.up == NONE {
                self.single_stages(node.used)
            } else {
                let side = 1 - usize::from(self.nodes[node.up as usize].cut);
                u8::from(node.used[side] < across[node.up as usize])
            };
        }
    }

    /// The board as the saw cuts it, rests whole and panels at their sizes. `panel` names the panel of the order that
    /// the next copy of a kind is.
    pub fn tree(&self, saw: &Saw, sides: Sides, panel: &mut impl FnMut(usize) -> usize) -> Tree {
        match self.is_empty() {
            true => Tree::Rest,
            false => self.tree_at(self.root, saw, sides, panel),
        }
    }

    fn tree_at(&self, node: u32, saw: &Saw, sides: Sides, panel: &mut impl FnMut(usize) -> usize) -> Tree {
        let Node { cut, kind, turned, used, .. } = self.nodes[node as usize];
        let own = used.map(|side| side as u32 - saw.kerf);
        if cut == PANEL {
            let panel = panel(usize::from(kind));
            return saw.trimmed(sides, own, Tree::Panel { panel, turned });
        }
        let (axis, across) = (usize::from(cut), 1 - usize::from(cut));
        let mut row = Vec::new();
        self.row(node, cut, &mut row);
        row.sort_by_key(|node| std::cmp::Reverse(self.nodes[*node as usize].used[axis]));
        let mut kept = sides;
        if self.limit.is_none() && own[across] < sides[across] {
            let rest = |axis: usize| u64::from(sides[axis] - own[axis]) * u64::from(sides[1 - axis]);
            kept[across] = own[across];
            if rest(axis) > rest(across) {
                kept[axis] = own[axis];
            }
        }
        let tree = self.row_tree(&row, axis, saw, kept, panel);
        saw.trimmed(sides, kept, tree)
    }

    /// The parts that lie in a row, cut in one direction.
    fn row(&self, node: u32, cut: u8, row: &mut Vec<u32>) {
        let Node { cut: own, parts, .. } = self.nodes[node as usize];
        if own == cut {
            parts.iter().for_each(|part| self.row(*part, cut, row));
        } else {
            row.push(node);
        }
    }

    /// A row sawn part by part, the longest first: the fence stays where parts are equal. The rest comes off last.
    fn row_tree(
        &self,
        row: &[u32],
        axis: usize,
        saw: &Saw,
        sides: Sides,
        panel: &mut impl FnMut(usize) -> usize,
    ) -> Tree {
        let (mut first, mut rest) = (sides, sides);
        first[axis] = self.nodes[row[0] as usize].used[axis] as u32 - saw.kerf;
        let tree = self.tree_at(row[0], saw, first, panel);
        if row.len() == 1 {
            return saw.trimmed(sides, first, tree);
        }
        rest[axis] = sides[axis] - first[axis] - saw.kerf;
        let second = self.row_tree(&row[1..], axis, saw, rest, panel);
        Tree::cut(direction(axis), first[axis], tree, Some(second))
    }

    /// The tree with cuts at the used sizes of a model in which each kind has these sides: for the proved calls.
    pub fn model_tree(
        &self,
        sides: &dyn Fn(usize) -> [u16; 2],
        number: &mut dyn FnMut(usize) -> u16,
    ) -> planner::Tree {
        if self.is_empty() {
            return planner::Tree::Waste;
        }
        self.model_at(self.root, sides, number).0
    }

    fn model_at(
        &self,
        node: u32,
        sides: &dyn Fn(usize) -> [u16; 2],
        number: &mut dyn FnMut(usize) -> u16,
    ) -> (planner::Tree, [u16; 2]) {
        let Node { cut, kind, turned, parts, .. } = self.nodes[node as usize];
        let kind = usize::from(kind);
        if cut == PANEL {
            let [length, width] = sides(kind);
            let used = if turned { [width, length] } else { [length, width] };
            return (planner::Tree::Piece { kind: number(kind), turned }, used);
        }
        let (first, a) = self.model_at(parts[0], sides, number);
        let (second, b) = self.model_at(parts[1], sides, number);
        let axis = usize::from(cut);
        let mut used = [a[0].max(b[0]), a[1].max(b[1])];
        used[axis] = a[axis] + b[axis];
        (planner::Tree::cut(direction(axis), a[axis], first, second), used)
    }
}

fn leaf(kind: usize, turned: bool, used: [i32; 2]) -> Node {
    let (parts, up, room) = ([NONE; 2], NONE, [0; 2]);
    Node { cut: PANEL, turned, kind: kind as u16, above: 0, stages: 0, parts, up, used, room }
}

fn push(node: Node, to: &mut Vec<Node>) -> u32 {
    to.push(node);
    to.len() as u32 - 1
}

/// A cut above two parts.
fn join(cut: u8, parts: [u32; 2], to: &mut Vec<Node>) -> u32 {
    let [a, b] = parts.map(|part| to[part as usize].used);
    let mut used = [a[0].max(b[0]), a[1].max(b[1])];
    used[usize::from(cut)] = a[usize::from(cut)] + b[usize::from(cut)];
    let (above, stages, up, room) = (0, 0, NONE, [0; 2]);
    let joined = push(Node { cut, turned: false, kind: 0, above, stages, parts, up, used, room }, to);
    parts.iter().for_each(|part| to[*part as usize].up = joined);
    joined
}
