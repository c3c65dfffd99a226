// The blade's width: one case for each sentence of the request, worked out by hand; the limits and
// the place of refusal 27; and both forms of the block.
use crate::damage::damage;
use crate::examples::{answers, input, lists, plan_refused, refuses, reports, writes, Node};
use crate::inputs::{draw, Scale, SMALL};
use crate::lent::{Lent, Sizes, AMPLE};
use crate::run::{compare, Call, Input, ALL_CALLS, ALL_CHOICES, IMPLEMENTATIONS, WEIGHING_CALLS};
use outside::answers::{OLD_BLOCK, TURNING};
use outside::blocks::{job_block, job_s, kerf_block, old_block, Kind};
use outside::random::Random;

/// A job without weights on a plate that is cut with a kerf.
fn sawn(plate: (u16, u16), kerf: u16, kinds: &[Kind], nodes: &[Node]) -> Input {
    input(kerf_block(plate.0, plate.1, kerf, kinds), &vec![0; kinds.len()], nodes)
}

/// Two pieces of 3 at 0 and at 4, cut apart at 3; 6 are left, or 2 beyond a second cut.
#[test]
fn the_blade_takes_its_width_between_pieces() {
    let job = |nodes: &[Node]| sawn((10, 3), 1, &[(3, 3, 5, 3)], nodes);
    let plan = [(2, 3), (1, 0), (1, 0)];
    lists(&job(&[]), &[0, 4, 8], &[0, 4]);
    answers(Call::Bound, &job(&[]), &[10, 0, 3, 2]);
    writes(&job(&plan), 10);
    reports(&job(&plan), 10, [18, 0, 9, 3], &[2]);
    answers(Call::Certify, &job(&plan), &[0, 10, 10]);
    let cut_off = [(2, 3), (1, 0), (2, 3), (1, 0)];
    reports(&job(&[&cut_off[..], &[(0, 0)]].concat()), 10, [18, 6, 0, 6], &[2]);
    plan_refused(&job(&[&cut_off[..], &[(1, 0)]].concat()), 15, 4);
    answers(Call::Bound, &sawn((10, 3), 0, &[(3, 3, 5, 3)], &[]), &[15, 0, 4, 2]);
}

#[test]
fn sawdust_lies_along_the_cut() {
    let plan = [(2, 3), (0, 0), (3, 1), (0, 0), (1, 0)];
    let areas = [1, 3 * 6 + 5, 5 * 3 - 1, 2 * 6 + 2 * 5];
    reports(&sawn((10, 6), 2, &[(1, 1, 1, 1)], &plan), 1, areas, &[1]);
}

#[test]
fn both_parts_of_a_cut_have_a_unit() {
    let job = |nodes: &[Node]| sawn((10, 7), 3, &[(1, 1, 1, 1)], nodes);
    let cut = |node| job(&[node, (0, 0), (1, 0)]);
    reports(&cut((2, 6)), 1, [1, 42, 6, 21], &[1]);
    reports(&cut((3, 3)), 1, [1, 30, 9, 30], &[1]);
    for position in [0, 7, 9, 10, 65_532, 65_533, 65_535] {
        plan_refused(&cut((2, position)), 14, 0);
    }
    for position in [0, 4, 6, 7, 65_533, 65_535] {
        plan_refused(&cut((3, position)), 14, 0);
    }
    plan_refused(&job(&[(2, 6), (2, 3), (0, 0), (0, 0), (0, 0)]), 14, 1);
    plan_refused(&job(&[(2, 1), (0, 0), (2, 3), (0, 0), (0, 0)]), 14, 2);
    reports(&job(&[(2, 1), (0, 0), (2, 2), (0, 0), (1, 0)]), 1, [1, 21, 6, 42], &[1]);
}

#[test]
fn a_side_that_the_blade_takes_whole_is_not_cut() {
    let cut = |side, position| sawn((side, 1), 20, &[(1, 1, 1, 2)], &[(2, position), (1, 0), (1, 0)]);
    for side in [1, 2, 19, 20, 21] {
        for position in 0..=side {
            plan_refused(&cut(side, position), 14, 0);
        }
        answers(Call::Bound, &cut(side, 1), &[1, 0, 2, 2]);
    }
    reports(&cut(22, 1), 2, [2, 0, 0, 20], &[2]);
    answers(Call::Bound, &cut(22, 1), &[2, 0, 3, 2]);
    plan_refused(&cut(22, 2), 14, 0);
}

/// There is no room for the blade beside the piece; it lies on its rectangle all the same.
#[test]
fn a_kerf_larger_than_the_rest() {
    let job = sawn((5, 5), 3, &[(4, 4, 7, 1)], &[(1, 0)]);
    lists(&job, &[0, 7], &[0, 7]);
    writes(&job, 7);
    reports(&job, 7, [16, 0, 9, 0], &[1]);
    plan_refused(&sawn((5, 5), 3, &[(4, 4, 7, 1)], &[(2, 4), (1, 0), (0, 0)]), 14, 0);
    let row = |length| sawn((length, 1), 2, &[(2, 1, 7, 9)], &[]);
    answers(Call::Bound, &row(5), &[7, 0, 2, 2]);
    answers(Call::Bound, &row(6), &[14, 0, 3, 2]);
}

/// Kind 0 twice, side by side along the width, is what the plate earns. Kind 1 has the whole length, so
/// that a cut after kind 0 is tried first. Beyond it and the kerf lengths 4, 5 and 6 have -1, 0 and 1.
#[test]
fn a_cut_without_a_second_part_is_left_out() {
    let job = |length, nodes: &[Node]| sawn((length, 8), 2, &[(3, 3, 5, 2), (length, 1, 1, 1)], nodes);
    let left_out = [(3, 3), (1, 0), (1, 0)];
    for length in [4, 5] {
        writes(&job(length, &left_out), 10);
        let trim = 2 * (u64::from(length) * 3 - 9);
        reports(&job(length, &left_out), 10, [18, 0, trim, 2 * u64::from(length)], &[2]);
    }
    let kept = [(2, 3), (3, 3), (1, 0), (1, 0), (0, 0)];
    writes(&job(6, &kept), 10);
    reports(&job(6, &kept), 10, [18, 8, 0, 22], &[2]);
}

/// The cut that is left out gives the first part a share of 2, and so both pieces are of kind 1. With
/// the whole share, 3, the second would be of kind 0.
#[test]
fn after_a_left_out_cut_the_first_share_counts() {
    let kinds = [(3, 3, 5, 1), (3, 3, 5, 1), (4, 1, 1, 1)];
    let plan = [(3, 3), (1, 1), (1, 1)];
    let job = input(kerf_block(4, 8, 2, &kinds), &[2, 1, 0], &plan);
    answers(Call::Bound, &job, &[10, 3, 3, 7]);
    writes(&job, 10);
}

/// A piece of 1 by 5 lies turned only; two of them are cut apart along their length.
#[test]
fn turned_sides_get_the_kerf_alike() {
    let plan = [(3, 1), (4, 0), (4, 0)];
    let job = sawn((5, 3), 1, &[(1, 5, 7, 2)], &plan).with(TURNING);
    lists(&job, &[0, 6], &[0, 2, 4]);
    writes(&job, 14);
    reports(&job, 14, [10, 0, 0, 5], &[2]);
    answers(Call::Certify, &job, &[0, 14, 14]);
    plan_refused(&job.with(0), 12, 1);
}

#[test]
fn the_greatest_side_and_kerf() {
    let kinds = [(490, 1, 7, 2), (1000, 1, 1, 1), (1000, 1000, 9, 1)];
    let job = sawn((1000, 1), 20, &kinds, &[(2, 490), (1, 0), (1, 0)]);
    lists(&job, &[0, 510, 1020], &[0, 21]);
    writes(&job, 14);
    reports(&job, 14, [980, 0, 0, 20], &[2]);
    let turned = sawn((1, 1000), 20, &kinds, &[(3, 490), (4, 0), (4, 0)]).with(TURNING);
    lists(&turned, &[0, 21], &[0, 510, 1020]);
    writes(&turned, 14);
}

/// 19 reads the kerf, however few the positions are.
#[test]
fn lists_need_the_kerf_too() {
    for (plate, kerf) in [((9, 9), 1), ((9, 9), 20), ((1000, 1), 20), ((1, 1000), 20)] {
        let job = sawn(plate, kerf, &[(plate.0, plate.1, 1, 1)], &[(0, 0)]);
        let [lengths, widths] = [plate.0, plate.1].map(|side| usize::from(side + kerf) + 1);
        let lend = |lengths, widths| Sizes { lengths, widths, ..AMPLE };
        for call in WEIGHING_CALLS {
            assert_eq!(compare(call, &job, lend(lengths, widths)).0, 0);
            for short in [lend(lengths - 1, widths), lend(lengths, widths - 1)] {
                assert_eq!(compare(call, &job, short).0, 19);
            }
        }
    }
}

#[test]
fn the_table_is_that_of_the_wider_job() {
    let job = input(kerf_block(10, 3, 1, &[(3, 3, 5, 200)]), &[1], &[(0, 0)]);
    for call in WEIGHING_CALLS {
        let (code, lent) = compare(call, &job, Sizes { table: 3 * 2 * 3 - 1, ..AMPLE });
        assert_eq!((code, lent.answer.words()[0]), (20, 3 * 2 * 3));
    }
    let (code, lent) = compare(Call::Bound, &job, Sizes { table: 3 * 2 * 3, ..AMPLE });
    assert_eq!(code, 0);
    let cells = [[0; 3], [0; 3], [0; 3], [0, 5, 5], [0; 3], [0, 5, 10]];
    assert_eq!(lent.table.words(), cells.concat());
}

#[test]
fn kerfs_up_to_20() {
    let job = |kerf, side| sawn((5, 3), kerf, &[(side, 3, 7, 1)], &[(1, 0)]);
    for choices in ALL_CHOICES {
        for call in ALL_CALLS {
            assert_eq!(compare(call, &job(20, 5).with(choices), AMPLE).0, 0);
            for kerf in [21, 255, 256, 65_535] {
                refuses(call, &job(kerf, 5).with(choices), 27, 0);
                refuses(call, &job(kerf, 0).with(choices), 27, 0);
            }
            refuses(call, &job(20, 0).with(choices), 5, 0);
        }
    }
}

/// The length of kind 0 stands where a new block has its kerf.
#[test]
fn an_old_block_has_no_kerf() {
    let job = input(old_block(50, 3, &[(21, 3, 7, 2)]), &[0], &[(2, 29), (1, 0), (1, 0)]);
    let old = job.clone().with(OLD_BLOCK);
    answers(Call::Bound, &old, &[14, 0, 3, 2]);
    reports(&old, 14, [126, 0, 24, 0], &[2]);
    refuses(Call::Bound, &job, 27, 0);
    let short = input(old_block(50, 3, &[(20, 3, 7, 2)]), &[0], &[(0, 0)]);
    refuses(Call::Bound, &short, 4, 0);
    refuses(Call::Bound, &input(job_s(), &[0; 3], &[]).with(OLD_BLOCK), 4, 0);
}

/// Header and size of each form, at every length of the block.
#[test]
fn blocks_cut_short() {
    let kinds = [(2, 3, 7, 1), (3, 1, 4, 2)];
    let blocks = [(0, 8, job_block(5, 3, &kinds)), (OLD_BLOCK, 6, old_block(5, 3, &kinds))];
    for (form, header, block) in blocks {
        for bytes in 0..block.len() {
            let short = input(block[..bytes].to_vec(), &[0, 0], &[(0, 0)]).with(form);
            let number = if bytes < header { 1 } else { 4 };
            for call in ALL_CALLS {
                refuses(call, &short, number, 0);
            }
        }
    }
}

/// Every answer and every lent word, of both implementations, on inputs that are damaged as well.
#[test]
fn kerf_0_answers_as_the_old_block() {
    let random = &mut Random::new(51);
    let mut compared = 0;
    for i in 0..3000 {
        let mut input = draw(random, Scale { kerf: 0, ..SMALL }, ALL_CHOICES[i % 4]);
        damage(random, &mut input);
        let forms = input.block_forms();
        let [new, old] = forms.as_slice() else { continue };
        compared += 1;
        for call in ALL_CALLS {
            for calls in IMPLEMENTATIONS {
                let [expected, given] = [new, old].map(|form| {
                    let mut lent = Lent::new(Sizes { lengths: 8, widths: 8, ..AMPLE });
                    (call.run(&calls, form, &mut lent), lent)
                });
                let differences = expected.1.differences(&given.1);
                assert_eq!((given.0, differences), (expected.0, vec![]), "{call:?} {input:?}");
            }
        }
    }
    println!("{compared} of 3000 inputs compared");
    assert!(compared >= 2000);
}
