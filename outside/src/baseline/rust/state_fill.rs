// The table where the capacity is above 0: a cell is one figure for each state, a share from 0 up.
// A finished cell has a list of the states at which it rises over a cell before it; a cut tries only
// pairs of those. The lists stand in memory of their own.
use super::plate::{Plate, LENGTH, WIDTH};

/// A figure above its state, so that one addition adds both.
type Entry = u64;

const STATE_BITS: u32 = 16;

/// Of a cell: its rising states in order, and a state from which on its figures are one constant.
#[derive(Clone, Copy, Default)]
struct List {
    start: u32,
    count: u16,
    last: u16,
}

/// The cells made so far, and the steps from a cell's number to its next neighbours'.
struct Made<'a> {
    figures: &'a [u64],
    lists: &'a [List],
    entries: &'a [Entry],
    states: usize,
    step: [usize; 2],
}

/// The cell that is being made. Its figures never fall; those below `known` are set, and the rest are
/// equal to the last of these. Rising states are flagged, none of them above `top`.
struct Cell<'a> {
    number: usize,
    figures: &'a mut [u64],
    rises: &'a mut [bool],
    known: usize,
    top: usize,
}

pub fn fill(plate: &Plate, table: &mut [u64]) {
    let (p, r) = (plate.on[LENGTH].at.len(), plate.on[WIDTH].at.len());
    let states = plate.capacity + 1;
    let mut lists = vec![List::default(); p * r];
    let mut entries = Vec::with_capacity(4 * p * r);
    let mut rises = vec![false; states];
    table[..r * states].fill(0);
    for a in 1..p {
        table[a * r * states..][..states].fill(0);
        for b in 1..r {
            let number = a * r + b;
            let (figures, rest) = table.split_at_mut(number * states);
            let made = Made { figures, lists: &lists, entries: &entries, states, step: [r, 1] };
            let figures = &mut rest[..states];
            let mut cell = Cell { number, figures, rises: &mut rises, known: 0, top: 0 };
            let last = make(plate, &made, &mut cell, [a, b]);
            lists[number] = cell.collect(&mut entries, last);
        }
    }
}

/// Makes a cell; gives the last state at which a cell before it rises.
fn make(plate: &Plate, made: &Made, cell: &mut Cell, index: [usize; 2]) -> usize {
    start(made, cell);
    let last = cell.known - 1;
    let size = [LENGTH, WIDTH].map(|d| plate.on[d].position(index[d]));
    for piece in plate.pieces.iter().filter(|piece| piece.side == size) {
        if piece.weight < made.states {
            cell.reach(piece.weight);
            if cell.figures[piece.weight] < piece.price {
                cell.raise(piece.weight, piece.price);
            }
        }
    }
    for direction in [LENGTH, WIDTH] {
        let step = made.step[direction];
        let origin = cell.number - index[direction] * step;
        for (i, rest) in plate.on[direction].halves(index[direction]) {
            cell.join(made.list(origin + i * step), made.list(origin + rest * step));
        }
    }
    cell.reach(made.states - 1);
    last
}

/// Starts a cell from the two before it.
fn start(made: &Made, cell: &mut Cell) {
    let [above, before] = made.step.map(|step| cell.number - step);
    cell.known = usize::from(made.lists[above].last.max(made.lists[before].last)) + 1;
    let both = made.cell(above).iter().zip(made.cell(before));
    for (figure, (x, y)) in cell.figures[..cell.known].iter_mut().zip(both) {
        *figure = *x.max(y);
    }
    cell.inherit(made.list(above), made.cell(before));
    cell.inherit(made.list(before), made.cell(above));
}

impl Made<'_> {
    fn cell(&self, number: usize) -> &[u64] {
        &self.figures[number * self.states..][..self.states]
    }

    fn list(&self, number: usize) -> &[Entry] {
        let List { start, count, .. } = self.lists[number];
        &self.entries[start as usize..][..count.into()]
    }
}

impl Cell<'_> {
    fn reach(&mut self, last: usize) {
        let end = (last + 1).min(self.figures.len());
        if end > self.known {
            let constant = self.figures[self.known - 1];
            self.figures[self.known..end].fill(constant);
            self.known = end;
        }
    }

    /// Flags the states of one cell before at which it is above the other.
    fn inherit(&mut self, list: &[Entry], other: &[u64]) {
        for &entry in list {
            if other[state(entry)] < figure(entry) {
                self.flag(state(entry));
            }
        }
    }

    /// Adds the rising states of two parts. One of the first is passed over where even the greatest
    /// figure of the second gives no more than its least state has already.
    fn join(&mut self, first: &[Entry], second: &[Entry]) {
        let (Some(last), Some(most)) = (first.last(), second.last()) else { return };
        self.reach(state(last + most));
        for x in first {
            match self.figures.get(state(x + second[0])) {
                None => return,
                Some(&has) if has < figure(x + most) => self.add(*x, second),
                Some(_) => {}
            }
        }
    }

    fn add(&mut self, x: Entry, second: &[Entry]) {
        for sum in second.iter().map(|y| x + y) {
            match self.figures.get(state(sum)) {
                None => return,
                Some(&has) if has < figure(sum) => self.raise(state(sum), figure(sum)),
                Some(_) => {}
            }
        }
    }

    /// Raises a state, and those above it up to the first that has as much.
    fn raise(&mut self, state: usize, figure: u64) {
        let range = state..self.known;
        let figures = self.figures[range.clone()].iter_mut().zip(&mut self.rises[range]);
        for (has, rises) in figures.take_while(|(has, _)| **has < figure) {
            *has = figure;
            *rises = false;
        }
        self.flag(state);
    }

    fn flag(&mut self, state: usize) {
        self.rises[state] = true;
        self.top = self.top.max(state);
    }

    /// Lists the flagged states and takes the flags off.
    fn collect(&mut self, entries: &mut Vec<Entry>, last: usize) -> List {
        let start = entries.len();
        for s in 0..=self.top {
            if std::mem::take(&mut self.rises[s]) {
                entries.push(self.figures[s] << STATE_BITS | s as Entry);
            }
        }
        let count = (entries.len() - start) as u16;
        List { start: start as u32, count, last: last.max(self.top) as u16 }
    }
}

fn state(entry: Entry) -> usize {
    (entry & ((1 << STATE_BITS) - 1)) as usize
}

fn figure(entry: Entry) -> u64 {
    entry >> STATE_BITS
}
