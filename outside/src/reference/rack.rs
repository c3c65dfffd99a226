// A rack of plates for one order: refusals 28 and 29, and 2 for each plate. The plans stand one after
// another in the arrays; each plate's sides stand in for the job's, which are blank here.
use super::job::{is_no_side, Job, Kind};
use super::plan::{check_arrays, check_cuts, check_tree};
use super::refuse_if;
use crate::answers::{Passed, Rack, Refusal};

pub fn check_rack(
    block: &[u8],
    choices: u32,
    rack: Rack,
    kinds: &[u8],
    operands: &[u16],
) -> Result<Passed, Refusal> {
    let lengths = [rack.lengths.len(), rack.widths.len(), rack.profits.len()];
    refuse_if(lengths != [lengths[0]; 3] || !(1..=16).contains(&lengths[0]), 28, 0)?;
    let mut job = Job::read(&with_unit_plate(block), choices)?;
    let sides = rack.lengths.iter().zip(rack.widths).map(|(&l, &w)| (l.into(), w.into()));
    let plates: Vec<(usize, usize)> = sides.collect();
    for (i, &(length, width)) in plates.iter().enumerate() {
        refuse_if(is_no_side(length) || is_no_side(width), 2, i)?;
    }
    check_arrays(kinds, operands)?;
    let profits = check_plans(&mut job, &plates, kinds, operands)?;
    rack.profits.copy_from_slice(&profits);
    Ok(Passed)
}

/// Checks each plan on its plate, and the copies of all so far; gives the profits.
fn check_plans(
    job: &mut Job,
    plates: &[(usize, usize)],
    kinds: &[u8],
    operands: &[u16],
) -> Result<Vec<u64>, Refusal> {
    let (mut profits, mut copies, mut start) = (Vec::new(), [0; 64], 0);
    for (i, &plate) in plates.iter().enumerate() {
        (job.length, job.width) = plate;
        let (report, end) = check_tree(job, kinds, operands, start)?;
        check_cuts(kinds, start..end)?;
        copies.iter_mut().zip(report.copies).for_each(|(all, own)| *all += own);
        let passes = |(kind, copies): (&Kind, &u64)| *copies > kind.demand;
        refuse_if(job.kinds.iter().zip(&copies).any(passes), 29, i)?;
        profits.push(report.profit);
        start = end;
    }
    refuse_if(start < kinds.len(), 18, start)?;
    Ok(profits)
}

/// The block with sides of 1, which no check refuses.
fn with_unit_plate(block: &[u8]) -> Vec<u8> {
    let mut blank = block.to_vec();
    blank.iter_mut().zip([1, 0, 1, 0]).for_each(|(byte, unit)| *byte = unit);
    blank
}
