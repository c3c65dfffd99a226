//! What a planner lends its calls: lists and plan arrays with the most that any job and plan can need, and a
//! table that grows to what refusal 20 asks for, up to a limit.

use crate::answers::{PlanArraysOf, Refusal, Storage};
use crate::pages::ask_for_huge_pages;
use crate::tree::{Operand, PlanOf};
use std::fmt;

/// The words of a list of positions: sides of 1,000 and a kerf of 20.
const LIST: usize = 1_021;

/// The most nodes of a plan.
const NODES: usize = 4_095;

/// Refusal 20, whose place is the words that the table needs.
const TABLE_TOO_SHORT: u32 = 20;

/// Why a call gave no answer.
#[derive(Clone, Copy, Debug, PartialEq, Eq)]
#[non_exhaustive]
pub enum Error {
    /// The call refused what it was given.
    Refused(Refusal),
    /// The table would need this many words, more than may be lent.
    Memory(u64),
}

/// The lists and the table, which has no more words than it may have.
pub struct Lender {
    most_words: u64,
    lengths: Vec<u16>,
    widths: Vec<u16>,
    table: Vec<u64>,
}

impl Lender {
    /// A lender whose table takes no more than `memory` bytes.
    pub fn new(memory: u64) -> Lender {
        let (lengths, widths) = (vec![0; LIST], vec![0; LIST]);
        Lender { most_words: memory / 8, lengths, widths, table: Vec::new() }
    }

    /// Makes a call; where it needs a longer table, lends that and makes it again.
    pub fn lend<A>(&mut self, call: impl FnMut(Storage) -> Result<A, Refusal>) -> Result<A, Error> {
        self.lend_times(1, call)
    }

    /// The same for a call that goes as far as its table does: whatever was lent before, it gets so many
    /// times the words that it needs, or as many as there may be.
    pub fn lend_spare<A>(
        &mut self,
        times: u64,
        call: impl FnMut(Storage) -> Result<A, Refusal>,
    ) -> Result<A, Error> {
        self.table = Vec::new();
        self.lend_times(times, call)
    }

    fn lend_times<A>(
        &mut self,
        times: u64,
        mut call: impl FnMut(Storage) -> Result<A, Refusal>,
    ) -> Result<A, Error> {
        let mut made = |lender: &mut Lender| {
            let Lender { lengths, widths, table, .. } = lender;
            call(Storage { lengths, widths, table })
        };
        match made(self) {
            Err(Refusal { number: TABLE_TOO_SHORT, place }) => {
                self.grow(place, times)?;
                Ok(made(self)?)
            }
            answer => Ok(answer?),
        }
    }

    /// Replaces the table by a longer one. The old one is given back first.
    fn grow(&mut self, words: u64, times: u64) -> Result<(), Error> {
        if words > self.most_words {
            return Err(Error::Memory(words));
        }
        self.table = Vec::new();
        self.table = vec![0; words.saturating_mul(times).min(self.most_words) as usize];
        ask_for_huge_pages(&mut self.table);
        Ok(())
    }
}

/// Makes a call that writes a plan and answers its node count.
pub fn written<P: Operand, A>(
    call: impl FnOnce(PlanArraysOf<P>) -> Result<(A, u64), Refusal>,
) -> Result<(A, PlanOf<P>), Refusal> {
    let mut plan = PlanOf { kinds: vec![0; NODES], operands: vec![P::from(0); NODES] };
    let arrays = PlanArraysOf { kinds: &mut plan.kinds, operands: &mut plan.operands };
    let (answer, nodes) = call(arrays)?;
    plan.kinds.truncate(nodes as usize);
    plan.operands.truncate(nodes as usize);
    Ok((answer, plan))
}

impl From<Refusal> for Error {
    fn from(refusal: Refusal) -> Error {
        Error::Refused(refusal)
    }
}

impl fmt::Display for Error {
    fn fmt(&self, f: &mut fmt::Formatter) -> fmt::Result {
        match self {
            Error::Refused(refusal) => refusal.fmt(f),
            Error::Memory(words) => {
                write!(f, "the table needs {} MiB, more than may be used", words.div_ceil(1 << 17))
            }
        }
    }
}

impl std::error::Error for Error {}
