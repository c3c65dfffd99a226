// Pieces that may be turned: one case for each sentence of the request, and turning against a job
// that lists every kind twice.
use crate::examples::{answers, input, lists, plan_refused, reports, writes, writes_alike, Node};
use crate::run::{Call, Input};
use outside::answers::{FULL_DEMAND, TURNING};
use outside::blocks::{job_block, job_s, kerf_block, Kind};
use outside::random::Random;

fn turning(length: u16, width: u16, kinds: &[Kind], nodes: &[Node]) -> Input {
    input(job_block(length, width, kinds), &vec![0; kinds.len()], nodes).with(TURNING)
}

#[test]
fn turned_pieces_are_of_kind_4() {
    let node = |choices, node| input(job_block(5, 3, &[(3, 5, 7, 1)]), &[0], &[node]).with(choices);
    plan_refused(&node(0, (4, 0)), 12, 0);
    plan_refused(&node(TURNING, (5, 0)), 12, 0);
    plan_refused(&node(TURNING, (4, 1)), 13, 0);
    plan_refused(&node(TURNING, (1, 0)), 15, 0);
    reports(&node(TURNING, (4, 0)), 7, [15, 0, 0, 0], &[1]);
}

#[test]
fn a_turned_piece_fits_with_its_sides_exchanged() {
    let piece = |length, width| turning(length, width, &[(2, 3, 7, 1)], &[(4, 0)]);
    reports(&piece(4, 3), 7, [6, 0, 6, 0], &[1]);
    plan_refused(&piece(2, 3), 15, 0);
    plan_refused(&piece(9, 1), 15, 0);
}

#[test]
fn both_orientations_count_against_one_demand() {
    let nodes = [(2, 2), (1, 0), (3, 2), (4, 0), (0, 0)];
    let plan = |demand| turning(5, 3, &[(2, 3, 7, demand)], &nodes);
    reports(&plan(2), 14, [12, 3, 0, 0], &[2]);
    plan_refused(&plan(1), 16, 3);
    plan_refused(&plan(0), 16, 1);
    let twice = [(3, 1), (4, 0), (3, 1), (4, 0), (4, 0)];
    plan_refused(&turning(3, 3, &[(1, 3, 1, 2)], &twice), 16, 4);
}

#[test]
fn each_orientation_gives_positions_where_it_fits() {
    lists(&turning(5, 3, &[(4, 3, 1, 1)], &[]), &[0, 4], &[0, 3]);
    lists(&turning(5, 3, &[(3, 5, 1, 1)], &[]), &[0, 5], &[0, 3]);
    lists(&turning(5, 4, &[(4, 3, 1, 1)], &[]), &[0, 3, 4], &[0, 3, 4]);
    lists(&turning(5, 3, &[(6, 4, 1, 1)], &[]), &[0], &[0]);
    let s = input(job_s(), &[0, 0, 0], &[]);
    lists(&s.with(TURNING), &[0, 1, 2, 3, 4, 5], &[0, 1, 2, 3]);
}

#[test]
fn upright_is_preferred_for_the_same_kind() {
    writes(&turning(3, 3, &[(3, 3, 5, 1)], &[(1, 0)]), 5);
    writes(&turning(3, 3, &[(2, 3, 5, 1)], &[(1, 0)]), 5);
    writes(&turning(3, 2, &[(2, 3, 5, 1)], &[(4, 0)]), 5);
}

#[test]
fn the_lowest_kind_beats_orientation() {
    writes(&turning(5, 3, &[(3, 5, 1, 1), (5, 3, 1, 1)], &[(4, 0)]), 1);
    writes(&turning(5, 3, &[(5, 3, 1, 1), (3, 5, 1, 1)], &[(1, 0)]), 1);
    writes(&turning(5, 3, &[(3, 5, 1, 1), (5, 3, 2, 1)], &[(1, 1)]), 2);
}

/// Two pieces of 2 by 3 and one of 3 by 1, turned, fill the plate of S.
#[test]
fn bound_and_certificate_take_both_orientations() {
    let s = |nodes: &[Node]| input(job_s(), &[0, 1, 0], nodes).with(TURNING);
    answers(Call::Bound, &s(&[]), &[18, 2, 6, 4]);
    writes(&s(&[(2, 1), (4, 1), (2, 2), (1, 0), (1, 0)]), 18);
    let plan = [(2, 2), (1, 0), (2, 1), (4, 1), (3, 2), (1, 2), (0, 0)];
    reports(&s(&plan), 16, [13, 2, 0, 0], &[1, 1, 1]);
    answers(Call::Certify, &s(&plan), &[2, 18, 16]);
    answers(Call::Certify, &turning(5, 3, &[(3, 5, 7, 1)], &[(4, 0)]), &[0, 7, 7]);
}

/// A job with turning, and one without that lists each kind upright and then turned; the demand is
/// divided between both, so that the full-demand capacity is the same.
fn draw_both(random: &mut Random) -> [Input; 2] {
    let (mut once, mut twice, mut weights) = (vec![], vec![], vec![]);
    for _ in 0..random.from(1, 4) {
        let (length, width) = (random.from(1, 6) as u16, random.from(1, 6) as u16);
        let (price, demand) = (random.from(0, 9) as u32, random.from(2, 4) as u16);
        once.push((length, width, price, demand));
        twice.extend([(length, width, price, demand - 1), (width, length, price, 1)]);
        weights.push(random.from(0, 2) as u8);
    }
    let (length, width) = (random.from(1, 8) as u16, random.from(1, 8) as u16);
    let kerf = random.from(0, 2) as u16;
    let both: Vec<u8> = weights.iter().flat_map(|&weight| [weight, weight]).collect();
    [
        input(kerf_block(length, width, kerf, &once), &weights, &[]).with(TURNING | FULL_DEMAND),
        input(kerf_block(length, width, kerf, &twice), &both, &[]).with(FULL_DEMAND),
    ]
}

#[test]
fn turning_is_to_list_every_kind_twice() {
    let random = &mut Random::new(31);
    for _ in 0..2000 {
        writes_alike(Call::WritePlan, &draw_both(random), |(kind, operand)| match (kind, operand % 2) {
            (1, 0) => (1, operand / 2),
            (1, _) => (4, operand / 2),
            _ => (kind, operand),
        });
    }
}
