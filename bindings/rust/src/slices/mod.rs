//! The safe wrapper over planner.h: the proved calls with typed answers.
//! `calls` has the same calls with the answer as the words that C sees.

pub mod calls;
mod typed;

use crate::answers::{Part, Refusal};

pub use typed::*;

/// The part of the kinds that belongs to a node and all below it. It refuses nothing but a word of choices
/// without a meaning (101).
pub fn saw_kinds<'a>(
    job: &[u8],
    choices: u32,
    kinds: &'a [u8],
    operands: &[u16],
    node: u64,
) -> Result<&'a [u8], Refusal> {
    Ok(part_of(kinds, typed::saw_kinds(job, choices, kinds, operands, node)?))
}

/// The part of the operands that belongs to a node and all below it, as [`saw_kinds`] gives the kinds.
pub fn saw_operands<'a>(
    job: &[u8],
    choices: u32,
    kinds: &[u8],
    operands: &'a [u16],
    node: u64,
) -> Result<&'a [u16], Refusal> {
    Ok(part_of(operands, typed::saw_operands(job, choices, kinds, operands, node)?))
}

fn part_of<T>(array: &[T], part: Part) -> &[T] {
    &array[part.first as usize..][..part.entries as usize]
}
