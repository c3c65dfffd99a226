//! Jobs and choices as types, and how they become what the calls take and are read from it.
//! Nothing is checked here: the calls refuse what they do not accept.

use crate::answers::{FULL_DEMAND, GRAIN, OLD_BLOCK, TURNING};
use crate::blocks::{kerf_block, old_block, sizes_block};

/// A kind of piece.
#[derive(Clone, Copy, Debug, PartialEq, Eq)]
pub struct Kind {
    /// The side along the plate's length, unless it is turned.
    pub length: u16,
    /// The side along the plate's width, unless it is turned.
    pub width: u16,
    /// What a copy earns.
    pub price: u32,
    /// The most copies that may be cut.
    pub demand: u16,
    /// Whether it keeps its grain and lies upright only; read where the choices have grain.
    pub grain: bool,
}

/// A plate, the blade's width and the kinds, all in whole units.
#[derive(Clone, Debug, PartialEq, Eq)]
pub struct Job {
    /// The plate's length.
    pub length: u16,
    /// The plate's width.
    pub width: u16,
    /// What the blade takes at each cut.
    pub kerf: u16,
    /// The kinds of pieces, numbered from 0.
    pub kinds: Vec<Kind>,
}

/// The true sizes of a job, in any unit of length; the job is their model.
#[derive(Clone, Debug, PartialEq, Eq)]
pub struct TrueSizes {
    /// The plate's length.
    pub length: u32,
    /// The plate's width.
    pub width: u32,
    /// What the blade takes at each cut.
    pub kerf: u32,
    /// Length and width of each kind, in the order of the job's.
    pub kinds: Vec<[u32; 2]>,
}

/// What a call chooses for the whole job.
#[derive(Clone, Copy, Debug, Default, PartialEq, Eq)]
pub struct Choices {
    /// Any piece may be turned, unless its kind keeps its grain.
    pub turning: bool,
    /// The capacity counts every demand in full.
    pub full_demand: bool,
    /// The job block is the old one, without a kerf.
    pub old_block: bool,
    /// The job block says of each kind whether it keeps its grain.
    pub grain: bool,
}

impl Job {
    /// The job as a block; the old block has no field for the kerf, and a block without grain none for it.
    pub fn block(&self, choices: Choices) -> Vec<u8> {
        let kinds: Vec<_> = self.kinds.iter().map(|k| (k.length, k.width, k.price, k.demand)).collect();
        let mut block = if choices.old_block {
            old_block(self.length, self.width, &kinds)
        } else {
            kerf_block(self.length, self.width, self.kerf, &kinds)
        };
        if choices.grain {
            block.extend(self.kinds.iter().map(|kind| u8::from(kind.grain)));
        }
        block
    }

    /// The job of a block, if it has the bytes that its header says, and none for grain but 0 and 1.
    pub fn from_block(block: &[u8], choices: Choices) -> Option<Job> {
        let word = |at: usize| Some(u16::from_le_bytes(*block.get(at..)?.first_chunk()?));
        let (length, width, count) = (word(0)?, word(2)?, usize::from(word(4)?));
        let (kerf, sizes) = if choices.old_block { (0, 6) } else { (word(6)?, 8) };
        let pairs = sizes + 4 * count;
        let grains = pairs + 6 * count;
        if block.len() != grains + if choices.grain { count } else { 0 } {
            return None;
        }
        let kind = |i: usize| {
            let (size, pair) = (sizes + 4 * i, pairs + 6 * i);
            let price = u32::from_le_bytes(*block.get(pair..)?.first_chunk()?);
            let (length, width, demand) = (word(size)?, word(size + 2)?, word(pair + 4)?);
            let grain = match block.get(grains + i) {
                None | Some(0) => false,
                Some(1) => true,
                Some(_) => return None,
            };
            Some(Kind { length, width, price, demand, grain })
        };
        let kinds = (0..count).map(kind).collect::<Option<_>>()?;
        Some(Job { length, width, kerf, kinds })
    }
}

impl TrueSizes {
    /// The sizes as a block.
    pub fn block(&self) -> Vec<u8> {
        sizes_block(self.length, self.width, self.kerf, &self.kinds)
    }

    /// The sizes of a block, if it has those of a plate and of whole kinds.
    pub fn from_block(block: &[u8]) -> Option<TrueSizes> {
        let (words, rest) = block.as_chunks::<4>();
        let words: Vec<u32> = words.iter().map(|four| u32::from_le_bytes(*four)).collect();
        let (&[length, width, kerf], kinds) = words.split_first_chunk()?;
        let (kinds, odd) = kinds.as_chunks::<2>();
        let whole = rest.is_empty() && odd.is_empty();
        whole.then(|| TrueSizes { length, width, kerf, kinds: kinds.to_vec() })
    }
}

impl Choices {
    /// The choices of a word of bits; bits that are no choice are left out.
    pub fn from_word(word: u32) -> Choices {
        let made = |bit| word & bit != 0;
        Choices {
            turning: made(TURNING),
            full_demand: made(FULL_DEMAND),
            old_block: made(OLD_BLOCK),
            grain: made(GRAIN),
        }
    }

    /// The choices as the word of bits that the calls take.
    pub fn word(self) -> u32 {
        let bit = |made, bit| if made { bit } else { 0 };
        bit(self.turning, TURNING)
            | bit(self.full_demand, FULL_DEMAND)
            | bit(self.old_block, OLD_BLOCK)
            | bit(self.grain, GRAIN)
    }
}
