// The saw: it sees the job block with every price byte blank, checks a plan as the office does and
// reports no profit; and the part of a plan that belongs to a node and all below it.
use super::plan::{check, tree};
use super::Job;
use crate::answers::{Part, Refusal, Report, SawReport, OLD_BLOCK};

pub fn saw_check(job: &[u8], choices: u32, kinds: &[u8], operands: &[u16]) -> Result<SawReport, Refusal> {
    let job = Job::read(&without_prices(job, choices), choices)?;
    let Report { pieces, waste, trim, copies, sawdust, .. } = check(&job, kinds, operands)?;
    Ok(SawReport { pieces, waste, trim, copies, sawdust })
}

/// The part of a node in the kinds.
pub fn saw_kinds(
    job: &[u8],
    choices: u32,
    kinds: &[u8],
    operands: &[u16],
    node: u64,
) -> Result<Part, Refusal> {
    Ok(saw_part(job, choices, (kinds, operands), kinds.len(), node))
}

/// The part of a node in the operands.
pub fn saw_operands(
    job: &[u8],
    choices: u32,
    kinds: &[u8],
    operands: &[u16],
    node: u64,
) -> Result<Part, Refusal> {
    Ok(saw_part(job, choices, (kinds, operands), operands.len(), node))
}

/// The part of a node in one of the plan's arrays, which has so many entries.
fn saw_part(job: &[u8], choices: u32, (kinds, operands): (&[u8], &[u16]), entries: usize, node: u64) -> Part {
    let passes = saw_check(job, choices, kinds, operands).is_ok();
    if passes && node < entries as u64 {
        let nodes = tree(&kinds[node as usize..]).len();
        Part { first: node, entries: nodes as u64 }
    } else {
        Part { first: entries as u64, entries: 0 }
    }
}

/// The block with 0 in each price byte that it has: four bytes before each demand.
fn without_prices(job: &[u8], choices: u32) -> Vec<u8> {
    let mut blank = job.to_vec();
    if let [_, _, _, _, low, high, ..] = *job {
        let n = usize::from(u16::from_le_bytes([low, high]));
        let header = if choices & OLD_BLOCK == 0 { 8 } else { 6 };
        let pairs = blank.iter_mut().skip(header + 4 * n).take(6 * n);
        for (_, byte) in pairs.enumerate().filter(|(at, _)| at % 6 < 4) {
            *byte = 0;
        }
    }
    blank
}
