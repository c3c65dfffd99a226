// Kinds of demand 0: one case for each sentence of the request, and jobs with cancelled kinds against
// the jobs that leave them out.
use crate::examples::{answers, input, lists, plan_refused, refuses, writes, writes_alike, Node};
use crate::run::{Call, Input, ALL_CHOICES};
use outside::answers::TURNING;
use outside::blocks::{job_block, kerf_block, Kind};
use outside::random::Random;

fn unweighted(length: u16, width: u16, kinds: &[Kind], nodes: &[Node]) -> Input {
    input(job_block(length, width, kinds), &vec![0; kinds.len()], nodes)
}

#[test]
fn a_cancelled_kind_gives_no_position_and_no_figure() {
    let job = unweighted(5, 3, &[(2, 1, 9, 0), (3, 3, 4, 1)], &[(1, 1)]);
    lists(&job, &[0, 3], &[0, 3]);
    writes(&job, 4);
    let turning = unweighted(5, 3, &[(1, 2, 9, 0), (3, 2, 4, 1)], &[]).with(TURNING);
    lists(&turning, &[0, 2, 3, 4, 5], &[0, 2, 3]);
}

#[test]
fn kind_numbers_do_not_shift() {
    writes(&unweighted(1, 1, &[(1, 1, 5, 0), (1, 1, 5, 1)], &[(1, 1)]), 5);
    writes(&unweighted(2, 1, &[(1, 2, 5, 0), (1, 2, 5, 1)], &[(4, 1)]).with(TURNING), 5);
}

#[test]
fn every_kind_cancelled_leaves_waste() {
    let waste = unweighted(9, 7, &[(2, 3, 7, 0), (1, 1, 1, 0)], &[(0, 0)]);
    for job in ALL_CHOICES.map(|choices| waste.clone().with(choices)) {
        answers(Call::Bound, &job, &[0, 0, 1, 1]);
        lists(&job, &[0], &[0]);
        writes(&job, 0);
        answers(Call::Certify, &job, &[0, 0, 0]);
    }
}

#[test]
fn refusals_stay_as_they_are() {
    let piece = |length, width| unweighted(4, 4, &[(length, width, 5, 0), (1, 1, 1, 1)], &[(1, 0)]);
    plan_refused(&piece(2, 2), 16, 0);
    plan_refused(&piece(5, 2), 15, 0);
    refuses(Call::Bound, &piece(0, 2), 5, 0);
    refuses(Call::Bound, &unweighted(4, 4, &[(1, 1, 1_000_001, 0)], &[]), 6, 0);
}

/// A job with cancelled kinds, the same job without them, and the numbers that its kinds had.
pub fn draw_both(random: &mut Random) -> ([Input; 2], Vec<u16>) {
    let (mut all, mut ordered, mut numbers) = (vec![], vec![], vec![]);
    let (mut weights, mut kept) = (vec![], vec![]);
    for i in 0..random.from(2, 6) {
        let (length, width) = (random.from(1, 6) as u16, random.from(1, 6) as u16);
        let demand = if i == 1 { 1 } else { random.from(0, 2) as u16 };
        all.push((length, width, random.from(0, 9) as u32, demand));
        weights.push(random.from(0, 3) as u8);
        if demand > 0 {
            ordered.push(all[i]);
            kept.push(weights[i]);
            numbers.push(i as u16);
        }
    }
    let (length, width) = (random.from(1, 8) as u16, random.from(1, 8) as u16);
    let (kerf, choices) = (random.from(0, 2) as u16, random.pick(&ALL_CHOICES));
    let job = |kinds: &[Kind], weights: &[u8]| {
        input(kerf_block(length, width, kerf, kinds), weights, &[]).with(choices)
    };
    ([job(&all, &weights), job(&ordered, &kept)], numbers)
}

#[test]
fn to_cancel_a_kind_is_to_leave_it_out() {
    let random = &mut Random::new(33);
    for _ in 0..2000 {
        let (inputs, numbers) = draw_both(random);
        for call in [Call::WritePlan, Call::Exact] {
            writes_alike(call, &inputs, |(kind, operand)| match kind {
                1 | 4 => (kind, numbers[usize::from(operand)]),
                _ => (kind, operand),
            });
        }
    }
}
