// Reading a job, its capacity and its normal positions. All sides have the kerf added: then parts
// make up a whole, and only the writer knows of the kerf.
// Also the two loops that all the work is in.
use crate::answers::{FULL_DEMAND, TURNING};

pub const LENGTH: usize = 0;
pub const WIDTH: usize = 1;

/// A kind as it may lie, and its node in a plan.
pub struct Piece {
    pub side: [usize; 2],
    pub price: u64,
    pub weight: usize,
    pub node: (u8, usize),
}

/// A side's normal positions, and for each unit the index of the largest one not above it.
pub struct Positions {
    pub side: usize,
    pub at: Vec<u16>,
    pub index: Vec<u16>,
}

pub struct Plate {
    pub kerf: usize,
    pub pieces: Vec<Piece>,
    pub capacity: usize,
    pub on: [Positions; 2],
}

impl Plate {
    pub fn read(job: &[u8], choices: u32, weights: &[u8]) -> Plate {
        let (n, kerf) = (two(job, 4), two(job, 6));
        let side = |bytes: &[u8], at| two(bytes, at) + kerf;
        let plate = [side(job, 0), side(job, 2)];
        let (sizes, pairs) = (&job[8..], &job[8 + 4 * n..]);
        let mut capacity = 0;
        let mut pieces = Vec::with_capacity(2 * n);
        for (i, &weight) in weights.iter().enumerate() {
            let [length, width] = [side(sizes, 4 * i), side(sizes, 4 * i + 2)];
            let price = (two(pairs, 6 * i) + (two(pairs, 6 * i + 2) << 16)) as u64;
            let weight = usize::from(weight);
            let demand = two(pairs, 6 * i + 4);
            capacity += counted(plate, [length, width], demand, choices) * weight;
            if demand == 0 {
                continue;
            }
            pieces.push(Piece { side: [length, width], price, weight, node: (1, i) });
            if choices & TURNING != 0 {
                pieces.push(Piece { side: [width, length], price, weight, node: (4, i) });
            }
        }
        let on = [LENGTH, WIDTH].map(|d| Positions::find(plate, &pieces, d));
        Plate { kerf, pieces, capacity, on }
    }

    /// The plate's length and width with the kerf.
    pub fn sides(&self) -> [usize; 2] {
        [self.on[LENGTH].side, self.on[WIDTH].side]
    }
}

impl Piece {
    pub fn fits(&self, rectangle: [usize; 2]) -> bool {
        fits(self.side, rectangle)
    }
}

impl Positions {
    fn find(plate: [usize; 2], pieces: &[Piece], direction: usize) -> Positions {
        let side = plate[direction];
        let mut normal = vec![false; side + 1];
        normal[0] = true;
        for piece in pieces.iter().filter(|piece| piece.fits(plate)) {
            for x in piece.side[direction]..=side {
                normal[x] |= normal[x - piece.side[direction]];
            }
        }
        let (mut at, mut index) = (Vec::with_capacity(side + 1), Vec::with_capacity(side + 1));
        for (x, is_normal) in normal.into_iter().enumerate() {
            if is_normal {
                at.push(x as u16);
            }
            index.push((at.len() - 1) as u16);
        }
        Positions { side, at, index }
    }

    /// The index of the largest normal position not above `x`.
    pub fn floor(&self, x: usize) -> usize {
        self.index[x].into()
    }

    /// The i-th normal position.
    pub fn position(&self, i: usize) -> usize {
        self.at[i].into()
    }

    /// The cuts of the i-th position, up to its half, that leave a normal remainder, as the indices
    /// of both parts.
    pub fn halves(&self, i: usize) -> impl Iterator<Item = (usize, usize)> + '_ {
        let side = self.position(i);
        let firsts = (1..i).take_while(move |&j| 2 * self.position(j) <= side);
        firsts.filter_map(move |j| {
            let rest = self.floor(side - self.position(j));
            (self.position(j) + self.position(rest) == side).then_some((j, rest))
        })
    }
}

/// Raises the sums of one value with each word of `second`. Most sums are no more than what is there
/// already, and 64-bit maxima are slow in SSE2: a store behind a test is faster.
pub fn raise_by(sums: &mut [u64], value: u64, second: &[u64]) {
    for (best, y) in sums.iter_mut().zip(second) {
        raise(best, value + y);
    }
}

/// Raises the sums, word by word, of two rows.
pub fn raise_rows(sums: &mut [u64], first: &[u64], second: &[u64]) {
    for ((best, x), y) in sums.iter_mut().zip(first).zip(second) {
        raise(best, x + y);
    }
}

fn raise(best: &mut u64, sum: u64) {
    if sum > *best {
        *best = sum;
    }
}

fn fits(side: [usize; 2], rectangle: [usize; 2]) -> bool {
    side[LENGTH] <= rectangle[LENGTH] && side[WIDTH] <= rectangle[WIDTH]
}

/// The copies of a kind that the capacity counts: its demand, or what the plate can hold where that
/// is less and the full demand is not chosen.
fn counted(plate: [usize; 2], side: [usize; 2], demand: usize, choices: u32) -> usize {
    let [length, width] = side;
    if choices & FULL_DEMAND != 0 {
        return demand;
    }
    let held = if choices & TURNING == 0 {
        plate[LENGTH] / length * (plate[WIDTH] / width)
    } else if fits(side, plate) || fits([width, length], plate) {
        plate[LENGTH] * plate[WIDTH] / (length * width)
    } else {
        0
    };
    demand.min(held)
}

fn two(bytes: &[u8], at: usize) -> usize {
    u16::from_le_bytes([bytes[at], bytes[at + 1]]).into()
}
