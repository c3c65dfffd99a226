// Lent memory, filled with a pattern and fenced on both sides, so that every changed word is seen.
// Two calls did the same where their whole memory is equal afterwards.
use outside::answers::{PlanArrays, Storage, TruePlanArrays, STAGED_REPORT_WORDS};

const FENCE: usize = 8;

/// How many words of each slice are lent; true positions as many as operands.
#[derive(Clone, Copy, Debug)]
pub struct Sizes {
    pub lengths: usize,
    pub widths: usize,
    pub table: usize,
    pub kinds: usize,
    pub operands: usize,
    pub answer: usize,
}

/// Lists, plan arrays and answer for every input, and a table for most.
pub const AMPLE: Sizes = Sizes {
    lengths: 1021,
    widths: 1021,
    table: 1 << 15,
    kinds: 4095,
    operands: 4095,
    answer: STAGED_REPORT_WORDS,
};

#[derive(PartialEq)]
pub struct Fenced<T>(Vec<T>);

#[derive(PartialEq)]
pub struct Lent {
    pub lengths: Fenced<u16>,
    pub widths: Fenced<u16>,
    pub table: Fenced<u64>,
    pub kinds: Fenced<u8>,
    pub operands: Fenced<u16>,
    pub positions: Fenced<u32>,
    pub answer: Fenced<u64>,
}

impl<T: Copy> Fenced<T> {
    fn new(words: usize, word: impl Fn(u64) -> T) -> Fenced<T> {
        let pattern = |i: usize| (i as u64 + 1).wrapping_mul(0x9E37_79B9_7F4A_7C15);
        Fenced((0..words + 2 * FENCE).map(|i| word(pattern(i))).collect())
    }

    pub fn words(&self) -> &[T] {
        &self.0[FENCE..self.0.len() - FENCE]
    }

    pub fn lend(&mut self) -> &mut [T] {
        let end = self.0.len() - FENCE;
        &mut self.0[FENCE..end]
    }
}

impl Lent {
    pub fn new(sizes: Sizes) -> Lent {
        Lent {
            lengths: Fenced::new(sizes.lengths, |x| (x >> 48) as u16),
            widths: Fenced::new(sizes.widths, |x| (x >> 40) as u16),
            table: Fenced::new(sizes.table, |x| x),
            kinds: Fenced::new(sizes.kinds, |x| (x >> 56) as u8),
            operands: Fenced::new(sizes.operands, |x| (x >> 44) as u16),
            positions: Fenced::new(sizes.operands, |x| (x >> 24) as u32),
            answer: Fenced::new(sizes.answer, |x| !x),
        }
    }

    /// The names of the slices in which two memories differ.
    pub fn differences(&self, other: &Lent) -> Vec<&'static str> {
        let same = [
            ("lengths", self.lengths == other.lengths),
            ("widths", self.widths == other.widths),
            ("table", self.table == other.table),
            ("kinds", self.kinds == other.kinds),
            ("operands", self.operands == other.operands),
            ("positions", self.positions == other.positions),
            ("answer", self.answer == other.answer),
        ];
        same.iter().filter(|(_, same)| !same).map(|(name, _)| *name).collect()
    }

    pub fn split(&mut self) -> (Storage<'_>, PlanArrays<'_>, &mut [u64]) {
        let storage =
            Storage { lengths: self.lengths.lend(), widths: self.widths.lend(), table: self.table.lend() };
        let plan = PlanArrays { kinds: self.kinds.lend(), operands: self.operands.lend() };
        (storage, plan, self.answer.lend())
    }

    /// The arrays of a plan at true sizes, and the answer.
    pub fn split_true(&mut self) -> (TruePlanArrays<'_>, &mut [u64]) {
        let plan = TruePlanArrays { kinds: self.kinds.lend(), operands: self.positions.lend() };
        (plan, self.answer.lend())
    }
}
