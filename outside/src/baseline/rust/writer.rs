// The plan behind the bound, read off the table with a list of waiting rectangles.
// A position is looked into only where both parts at the whole share could earn the value.
// Sides have the kerf added: a second part that is no longer is none, and its cut is left out.
use super::plate::{Plate, LENGTH, WIDTH};
use crate::answers::PlanArrays;

const MOST_NODES: usize = 4095;

/// A rectangle and its share.
#[derive(Clone, Copy)]
struct Part {
    side: [usize; 2],
    share: usize,
}

enum Choice {
    Leaf((u8, usize)),
    Cut { direction: usize, position: usize, share: usize },
}

/// The filled table, and the words from a cell to its next neighbour in each direction.
struct Tabled<'a> {
    plate: &'a Plate,
    table: &'a [u64],
    step: [usize; 2],
}

pub fn write_nodes(plate: &Plate, table: &[u64], plan: PlanArrays) -> usize {
    let shares = plate.capacity + 1;
    let step = [plate.on[WIDTH].at.len() * shares, shares];
    let tabled = Tabled { plate, table, step };
    let mut nodes = Vec::with_capacity(MOST_NODES);
    let mut count = 0;
    let mut waiting = vec![Part { side: plate.sides(), share: plate.capacity }];
    while let Some(part) = waiting.pop() {
        let node = match tabled.choose(part) {
            Choice::Leaf((kind, operand)) => (kind, operand as u16),
            Choice::Cut { direction, position, share } => {
                let (mut first, mut second) = (part, part);
                first.side[direction] = position;
                first.share = share;
                second.side[direction] -= position;
                second.share -= share;
                if second.side[direction] <= plate.kerf {
                    waiting.push(first);
                    continue;
                }
                waiting.extend([second, first]);
                (2 + direction as u8, (position - plate.kerf) as u16)
            }
        };
        if count < MOST_NODES {
            nodes.push(node);
        }
        count += 1;
    }
    if count <= MOST_NODES {
        for (i, &(kind, operand)) in nodes.iter().enumerate() {
            plan.kinds[i] = kind;
            plan.operands[i] = operand;
        }
    }
    count
}

impl Tabled<'_> {
    fn choose(&self, part: Part) -> Choice {
        let at: usize = [LENGTH, WIDTH].iter().map(|&d| self.place(part, d)).sum();
        let value = self.table[at + part.share];
        if value == 0 {
            return Choice::Leaf((0, 0));
        }
        let mut pieces = self.plate.pieces.iter();
        let earns =
            pieces.find(|piece| piece.price == value && piece.fits(part.side) && piece.weight <= part.share);
        if let Some(piece) = earns {
            return Choice::Leaf(piece.node);
        }
        let cut = |direction| self.find_cut(part, direction, at, value);
        cut(LENGTH).or_else(|| cut(WIDTH)).expect("some cut earns the figure")
    }

    /// Words from the table's start to the part's place in one direction.
    fn place(&self, part: Part, direction: usize) -> usize {
        self.plate.on[direction].floor(part.side[direction]) * self.step[direction]
    }

    fn find_cut(&self, part: Part, direction: usize, at: usize, value: u64) -> Option<Choice> {
        let positions = &self.plate.on[direction];
        let (side, step) = (part.side[direction], self.step[direction]);
        let origin = at - self.place(part, direction);
        for i in 1..positions.floor(side) {
            let position = positions.position(i);
            let first = &self.table[origin + i * step..][..=part.share];
            let second = &self.table[origin + positions.floor(side - position) * step..][..=part.share];
            if first[part.share] + second[part.share] >= value {
                let mut sums = first.iter().zip(second.iter().rev());
                if let Some(share) = sums.position(|(x, y)| x + y == value) {
                    return Some(Choice::Cut { direction, position, share });
                }
            }
        }
        None
    }
}
