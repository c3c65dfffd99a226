// Neat plans: one case for each sentence of the request, and of every generated plan that the neat
// plan passes the check, earns the same with the same copies, has no more nodes and stages, and is its
// own neat plan.
use crate::examples::{input, refuses, tidies, Node};
use crate::inputs::{draw, Scale, SMALL};
use crate::lent::{Lent, Sizes, AMPLE};
use crate::run::{compare, Call, Input, ALL_CHOICES};
use outside::answers::TURNING;
use outside::blocks::{job_s, kerf_block};
use outside::random::Random;

fn s(nodes: &[Node]) -> Input {
    input(job_s(), &[0, 0, 0], nodes)
}

/// Kinds 3×1 and 2×2, three of each, on a plate of 20 by 10 with a kerf of 2.
fn sawn(nodes: &[Node]) -> Input {
    input(kerf_block(20, 10, 2, &[(3, 1, 4, 3), (2, 2, 5, 3)]), &[0, 0], nodes)
}

#[test]
fn a_plan_without_a_piece_is_one_waste_node() {
    tidies(&s(&[(0, 0)]), &[(0, 0)]);
}

#[test]
fn a_piece_stays_as_it_lies() {
    tidies(&s(&[(1, 0)]), &[(1, 0)]);
    tidies(&s(&[(4, 1)]).with(TURNING), &[(4, 1)]);
}

#[test]
fn a_cut_with_a_pieceless_part_is_replaced_by_the_other_part() {
    tidies(&s(&[(2, 2), (1, 0), (0, 0)]), &[(1, 0)]);
    tidies(&s(&[(2, 3), (0, 0), (1, 0)]), &[(1, 0)]);
    tidies(&s(&[(3, 1), (0, 0), (2, 3), (1, 2), (0, 0)]), &[(1, 2)]);
    tidies(&sawn(&[(2, 9), (0, 0), (3, 4), (1, 0), (1, 1)]), &[(3, 1), (1, 0), (1, 1)]);
}

#[test]
fn a_remaining_cut_moves_to_the_first_part_s_used_size() {
    tidies(&s(&[(2, 3), (1, 0), (1, 2)]), &[(2, 2), (1, 0), (1, 2)]);
    tidies(&s(&[(3, 1), (1, 1), (1, 2)]), &[(3, 1), (1, 1), (1, 2)]);
    let turned = s(&[(2, 3), (4, 1), (1, 0)]).with(TURNING);
    tidies(&turned, &[(2, 1), (4, 1), (1, 0)]);
}

/// Along the inner cut 3, the kerf and 2; across it the greater of 1 and 2.
#[test]
fn used_sizes_sum_along_a_cut_with_the_kerf() {
    let along = [(2, 14), (2, 6), (1, 0), (1, 1), (1, 1)];
    tidies(&sawn(&along), &[(2, 7), (2, 3), (1, 0), (1, 1), (1, 1)]);
    let across = [(3, 6), (2, 6), (1, 0), (1, 1), (1, 1)];
    tidies(&sawn(&across), &[(3, 2), (2, 3), (1, 0), (1, 1), (1, 1)]);
    let width = [(3, 7), (3, 3), (1, 1), (1, 0), (1, 0)];
    tidies(&sawn(&width), &[(3, 5), (3, 2), (1, 1), (1, 0), (1, 0)]);
}

/// The kerf of a cut that is replaced is not counted.
#[test]
fn a_replaced_cut_has_the_other_part_s_used_size() {
    let nodes = [(2, 14), (2, 6), (1, 0), (0, 0), (1, 1)];
    tidies(&sawn(&nodes), &[(2, 3), (1, 0), (1, 1)]);
}

#[test]
fn the_plan_is_checked_first() {
    refuses(Call::NeatPlan, &s(&[(2, 2), (0, 0), (0, 0)]), 26, 0);
    refuses(Call::NeatPlan, &s(&[(2, 5), (0, 0), (1, 0)]), 14, 0);
    refuses(Call::NeatPlan, &s(&[(4, 1)]), 12, 0);
    refuses(Call::NeatPlan, &s(&[(1, 0), (0, 0)]), 18, 1);
    refuses(Call::NeatPlan, &s(&[]), 11, 0);
}

#[test]
fn short_output_arrays_draw_21_with_the_nodes_needed() {
    let plan = s(&[(2, 3), (1, 0), (3, 1), (0, 0), (1, 2)]);
    for (kinds, operands) in [(2, 3), (3, 2), (0, 0), (3, 0), (3, 3), (9, 3)] {
        let sizes = Sizes { kinds, operands, ..AMPLE };
        let (code, lent) = compare(Call::NeatPlan, &plan, sizes);
        assert_eq!((code, lent.answer.words()[0]), (if kinds.min(operands) < 3 { 21 } else { 0 }, 3));
    }
    let none = Sizes { kinds: 0, operands: 9, ..AMPLE };
    let (code, lent) = compare(Call::NeatPlan, &s(&[(0, 0)]), none);
    assert_eq!((code, lent.answer.words()[0]), (21, 1));
}

/// The most changes of direction on a path down through the cuts, plus one; and what is left.
pub fn stages(nodes: &[Node], above: Option<u8>) -> (u64, &[Node]) {
    let (&(kind, _), rest) = nodes.split_first().expect("a node");
    if !matches!(kind, 2 | 3) {
        return (0, rest);
    }
    let (first, rest) = stages(rest, Some(kind));
    let (second, rest) = stages(rest, Some(kind));
    let own = u64::from(above != Some(kind));
    (own + first.max(second), rest)
}

pub fn nodes(input: &Input) -> Vec<Node> {
    input.kinds.iter().copied().zip(input.operands.iter().copied()).collect()
}

/// Profit and copies of a plan that passes its check.
fn checked(input: &Input) -> (u64, Vec<u64>) {
    let (code, lent) = compare(Call::CheckPlan, input, AMPLE);
    assert_eq!(code, 0, "{input:?}");
    (lent.answer.words()[0], lent.answer.words()[4..68].to_vec())
}

/// Plates with room for several pieces, so that many plans have cuts to move or to replace.
const ROOMY: Scale = Scale { plate: 16, demand: 9, ..SMALL };

#[test]
fn generated_plans_stay_what_they_are() {
    let (random, mut tidied, mut moved) = (&mut Random::new(61), 0, 0);
    for i in 0..6000 {
        let plan = draw(random, ROOMY, ALL_CHOICES[i % 4]);
        let (code, lent): (u32, Lent) = compare(Call::NeatPlan, &plan, AMPLE);
        if code != 0 {
            continue;
        }
        let neat = plan.with_neat_plan(&lent);
        tidied += 1;
        moved += usize::from(nodes(&neat) != nodes(&plan));
        assert_eq!(checked(&neat), checked(&plan));
        assert!(neat.kinds.len() <= plan.kinds.len());
        assert!(stages(&nodes(&neat), None).0 <= stages(&nodes(&plan), None).0);
        let (code, again) = compare(Call::NeatPlan, &neat, AMPLE);
        assert_eq!((code, nodes(&neat.with_neat_plan(&again))), (0, nodes(&neat)));
    }
    println!("{tidied} plans neatened, {moved} of them changed");
    assert!(tidied >= 2000 && moved >= 500);
}
