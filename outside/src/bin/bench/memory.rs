// The memory that the measured calls are lent. It is touched before the first call and never cleared between
// calls; words that no call has written are told from all that one may write.
use outside::answers::{PlanArrays, Rack, Storage, TruePlanArrays, STAGED_REPORT_WORDS};

/// What no call writes as a word of an answer.
pub const UNTOUCHED: u64 = 0xAAAA_AAAA_AAAA_AAAA;

#[derive(PartialEq)]
pub struct Memory {
    lengths: Vec<u16>,
    widths: Vec<u16>,
    pub table: Vec<u64>,
    kinds: Vec<u8>,
    operands: Vec<u16>,
    positions: Vec<u32>,
    profits: Vec<u64>,
    pub answer: Vec<u64>,
}

impl Memory {
    pub fn new(words: usize) -> Memory {
        Memory {
            lengths: vec![0xAAAA; 1021],
            widths: vec![0xAAAA; 1021],
            table: vec![UNTOUCHED; words],
            kinds: vec![0xAA; 4095],
            operands: vec![0xAAAA; 4095],
            positions: vec![0xAAAA_AAAA; 4095],
            profits: vec![UNTOUCHED; 16],
            answer: vec![UNTOUCHED; STAGED_REPORT_WORDS],
        }
    }

    pub fn split(&mut self) -> (Storage<'_>, PlanArrays<'_>, &mut [u64]) {
        let Memory { lengths, widths, table, kinds, operands, answer, .. } = self;
        (Storage { lengths, widths, table }, PlanArrays { kinds, operands }, answer)
    }

    /// The arrays of a plan at true sizes, and the answer.
    pub fn true_plan(&mut self) -> (TruePlanArrays<'_>, &mut [u64]) {
        let Memory { kinds, positions, answer, .. } = self;
        (TruePlanArrays { kinds, operands: positions }, answer)
    }

    /// A rack of these plates, and the answer.
    pub fn rack<'a>(&'a mut self, sides: &'a [Vec<u16>; 2]) -> (Rack<'a>, &'a mut [u64]) {
        let [lengths, widths] = sides;
        let profits = &mut self.profits[..lengths.len()];
        (Rack { lengths, widths, profits }, &mut self.answer)
    }

    /// Writes the words of an answer.
    pub fn put<const N: usize>(&mut self, words: [u64; N]) {
        self.answer[..N].copy_from_slice(&words);
    }
}
