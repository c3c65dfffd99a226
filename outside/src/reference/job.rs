// The job block, new and old: refusals 1 to 7, 27 and 35; the pieces as they may lie; what a cut leaves.
// Header, then all sizes, then the pairs of price and demand, then the grain where the choices have it.
use super::refuse_if;
use crate::answers::{Refusal, FULL_DEMAND, GRAIN, OLD_BLOCK, TURNING};

#[derive(Clone, Copy)]
pub struct Kind {
    pub length: usize,
    pub width: usize,
    pub price: u64,
    pub demand: u64,
    /// Whether it keeps its grain.
    pub grain: bool,
}

/// A piece as it lies: of which kind, and its sides, exchanged where it is turned.
pub struct Piece {
    pub kind: usize,
    pub turned: bool,
    pub length: usize,
    pub width: usize,
}

#[derive(Clone)]
pub struct Job {
    pub length: usize,
    pub width: usize,
    pub kerf: usize,
    pub kinds: Vec<Kind>,
    pub turning: bool,
    pub full_demand: bool,
}

impl Piece {
    pub fn fits(&self, length: usize, width: usize) -> bool {
        self.length <= length && self.width <= width
    }
}

impl Job {
    pub fn piece(&self, kind: usize, turned: bool) -> Piece {
        let Kind { length, width, .. } = self.kinds[kind];
        let (length, width) = if turned { (width, length) } else { (length, width) };
        Piece { kind, turned, length, width }
    }

    /// Whether pieces of a kind may be turned.
    pub fn turns(&self, kind: usize) -> bool {
        self.turning && !self.kinds[kind].grain
    }

    /// Every kind that is ordered as it may lie, upright before turned. A kind of demand 0 is cancelled.
    pub fn pieces(&self) -> impl Iterator<Item = Piece> + '_ {
        let kinds = (0..self.kinds.len()).filter(|&i| self.kinds[i].demand > 0);
        kinds.flat_map(move |i| {
            let ways: &[bool] = if self.turns(i) { &[false, true] } else { &[false] };
            ways.iter().map(move |&turned| self.piece(i, turned))
        })
    }

    /// The second part of a cut at a position; none where a part would be below 1. The blade takes
    /// the kerf after the position.
    pub fn second(&self, side: usize, position: usize) -> Option<usize> {
        let second = side.checked_sub(position + self.kerf)?;
        (position >= 1 && second >= 1).then_some(second)
    }

    /// Both parts of each cut of a side.
    pub fn parts(&self, side: usize) -> impl Iterator<Item = (usize, usize)> + '_ {
        (1..side).filter_map(move |first| Some((first, self.second(side, first)?)))
    }

    pub fn read(block: &[u8], choices: u32) -> Result<Job, Refusal> {
        let chosen = |bit| choices & bit != 0;
        let header = if chosen(OLD_BLOCK) { 6 } else { 8 };
        refuse_if(block.len() < header, 1, 0)?;
        let (length, width, n) = (two(block, 0), two(block, 2), two(block, 4));
        let kerf = if chosen(OLD_BLOCK) { 0 } else { two(block, 6) };
        refuse_if(is_no_side(length) || is_no_side(width), 2, 0)?;
        refuse_if(!(1..=64).contains(&n), 3, 0)?;
        refuse_if(kerf > 20, 27, 0)?;
        refuse_if(block.len() != header + if chosen(GRAIN) { 11 } else { 10 } * n, 4, 0)?;
        let (sizes, rest) = block[header..].split_at(4 * n);
        let (pairs, grains) = rest.split_at(6 * n);
        for (i, size) in sizes.chunks(4).enumerate() {
            refuse_if(is_no_side(two(size, 0)) || is_no_side(two(size, 2)), 5, i)?;
        }
        for (i, pair) in pairs.chunks(6).enumerate() {
            refuse_if(four(pair, 0) > 1_000_000, 6, i)?;
            refuse_if(two(pair, 4) > 255, 7, i)?;
        }
        for (i, &grain) in grains.iter().enumerate() {
            refuse_if(grain > 1, 35, i)?;
        }
        let kept = |i: usize| grains.get(i) == Some(&1);
        let kinds = sizes.chunks(4).zip(pairs.chunks(6)).enumerate();
        let kinds = kinds.map(|(i, (size, pair))| kind(size, pair, kept(i))).collect();
        let (turning, full_demand) = (chosen(TURNING), chosen(FULL_DEMAND));
        Ok(Job { length, width, kerf, kinds, turning, full_demand })
    }
}

fn kind(size: &[u8], pair: &[u8], grain: bool) -> Kind {
    Kind {
        length: two(size, 0),
        width: two(size, 2),
        price: four(pair, 0) as u64,
        demand: two(pair, 4) as u64,
        grain,
    }
}

pub fn is_no_side(side: usize) -> bool {
    !(1..=1000).contains(&side)
}

fn two(bytes: &[u8], at: usize) -> usize {
    u16::from_le_bytes([bytes[at], bytes[at + 1]]) as usize
}

pub fn four(bytes: &[u8], at: usize) -> usize {
    two(bytes, at) + (two(bytes, at + 2) << 16)
}
