// No idle cuts: 26 at the first cut in preorder neither of whose parts holds a piece, and only after
// every other refusal of the plan; one case for each sentence of the request.
use crate::examples::{answers, input, plan_refused, reports, Node};
use crate::run::{Call, Input};
use outside::answers::TURNING;
use outside::blocks::job_s;

fn s(nodes: &[Node]) -> Input {
    input(job_s(), &[0, 0, 0], nodes)
}

#[test]
fn a_cut_that_frees_only_waste_is_refused() {
    plan_refused(&s(&[(2, 2), (0, 0), (0, 0)]), 26, 0);
    plan_refused(&s(&[(3, 2), (0, 0), (0, 0)]), 26, 0);
    plan_refused(&s(&[(2, 2), (1, 0), (3, 1), (0, 0), (0, 0)]), 26, 2);
    plan_refused(&s(&[(2, 3), (3, 1), (0, 0), (0, 0), (1, 0)]), 26, 1);
}

#[test]
fn the_first_in_preorder_is_named() {
    plan_refused(&s(&[(2, 3), (2, 1), (0, 0), (0, 0), (0, 0)]), 26, 0);
    plan_refused(&s(&[(2, 3), (0, 0), (3, 1), (0, 0), (0, 0)]), 26, 0);
    let both = [(3, 1), (2, 3), (1, 1), (0, 0), (2, 2), (3, 1), (0, 0), (0, 0), (2, 1), (0, 0), (0, 0)];
    plan_refused(&s(&both), 26, 4);
}

#[test]
fn one_waste_node_and_a_cut_with_one_pieceless_part_pass() {
    reports(&s(&[(0, 0)]), 0, [0, 15, 0, 0], &[]);
    reports(&s(&[(2, 2), (1, 0), (0, 0)]), 7, [6, 9, 0, 0], &[1]);
    reports(&s(&[(2, 3), (0, 0), (1, 0)]), 7, [6, 9, 0, 0], &[1]);
}

#[test]
fn a_turned_piece_is_a_piece() {
    let plan = [(2, 1), (4, 1), (0, 0)];
    reports(&s(&plan).with(TURNING), 4, [3, 12, 0, 0], &[0, 1]);
}

#[test]
fn every_other_refusal_of_the_plan_comes_first() {
    plan_refused(&s(&[(2, 2), (0, 0), (0, 0), (0, 0)]), 18, 3);
    plan_refused(&s(&[(2, 2), (0, 0)]), 17, 2);
    plan_refused(&s(&[(2, 3), (3, 1), (0, 0), (0, 0), (1, 1)]), 15, 4);
    plan_refused(&s(&[(2, 2), (3, 1), (0, 0), (0, 0), (2, 3), (0, 0), (0, 0)]), 14, 4);
}

/// "Best" speaks of every tree, though one with an idle cut is not checked.
#[test]
fn a_plan_without_its_idle_cut_is_certified() {
    let best = [(2, 2), (1, 0), (3, 1), (1, 1), (1, 2)];
    let weighed = |nodes: &[Node]| input(job_s(), &[0, 1, 0], nodes);
    answers(Call::Certify, &weighed(&best), &[0, 16, 16]);
    plan_refused(&weighed(&[(2, 2), (1, 0), (3, 1), (0, 0), (0, 0)]), 26, 2);
}
