// Points that the scope leaves to a close reading, one case each.
// Every case tells two possible readings apart.
use crate::examples::{answers, input, lists, plan_refused, refuses, reports, writes};
use crate::lent::{Lent, Sizes, AMPLE};
use crate::run::{compare, Call, Input, ALL_CALLS, ALL_CHOICES, WEIGHING_CALLS};
use outside::answers::{FULL_DEMAND, OLD_BLOCK};
use outside::blocks::{job_block, job_s};

const ROOM: Sizes = Sizes { lengths: 64, widths: 64, table: 4096, kinds: 64, operands: 64, ..AMPLE };

fn all_refuse(input: &Input, number: u32, place: u64) {
    for call in ALL_CALLS {
        refuses(call, input, number, place);
    }
}

#[test]
fn pairs_are_checked_one_after_the_other() {
    let job = job_block(5, 3, &[(2, 3, 7, 256), (3, 1, 1_000_001, 2)]);
    all_refuse(&input(job, &[0, 0], &[(0, 0)]), 7, 0);
    let job = job_block(5, 3, &[(2, 3, 1_000_001, 256), (3, 1, 4, 2)]);
    all_refuse(&input(job, &[0, 0], &[(0, 0)]), 6, 0);
}

#[test]
fn header_is_checked_in_order() {
    let bad = |bytes: &[u8], number| {
        all_refuse(&input(bytes.to_vec(), &[], &[(0, 0)]), number, 0);
    };
    bad(&[0, 0, 0, 0, 0, 0, 21], 1);
    bad(&[0, 0, 1, 0, 0, 0, 21, 0], 2);
    bad(&[1, 0, 1, 0, 0, 0, 21, 0], 3);
    bad(&[1, 0, 1, 0, 65, 0, 21, 0], 3);
    bad(&[1, 0, 1, 0, 1, 0, 21, 0], 27);
    bad(&[1, 0, 1, 0, 1, 0, 20, 0], 4);
    let mut long = job_s();
    long.push(0);
    all_refuse(&input(long, &[0, 0, 0], &[(0, 0)]), 4, 0);
}

#[test]
fn old_header_is_checked_in_order() {
    let bad = |bytes: &[u8], number| {
        all_refuse(&input(bytes.to_vec(), &[], &[(0, 0)]).with(OLD_BLOCK), number, 0);
    };
    bad(&[0, 0, 0, 0, 0], 1);
    bad(&[0, 0, 1, 0, 0, 0], 2);
    bad(&[1, 0, 1, 0, 0, 0], 3);
    bad(&[1, 0, 1, 0, 65, 0], 3);
    bad(&[1, 0, 1, 0, 1, 0], 4);
}

#[test]
fn sizes_are_checked_before_pairs() {
    let job = job_block(5, 3, &[(2, 3, 1_000_001, 1), (3, 0, 4, 2)]);
    all_refuse(&input(job, &[0, 0], &[(0, 0)]), 5, 1);
    let job = job_block(5, 3, &[(1001, 3, 7, 1), (3, 0, 4, 2)]);
    all_refuse(&input(job, &[0, 0], &[(0, 0)]), 5, 0);
}

#[test]
fn certificate_reads_weights_then_plan_then_storage() {
    let short = Sizes { lengths: 0, ..ROOM };
    let code = |weights: &[u8], nodes: &[(u8, u16)]| {
        compare(Call::Certify, &input(job_s(), weights, nodes), short).0
    };
    assert_eq!(code(&[0, 0], &[(4, 0)]), 8);
    assert_eq!(code(&[0, 0, 0], &[(4, 0)]), 12);
    assert_eq!(code(&[0, 0, 0], &[(0, 0)]), 19);
}

#[test]
fn unequal_arrays_come_before_no_node() {
    let mut unequal = input(job_s(), &[0, 0, 0], &[]);
    unequal.kinds = vec![0];
    unequal.plan = vec![0, 0, 0];
    plan_refused(&unequal, 10, 0);
    plan_refused(&input(job_s(), &[0, 0, 0], &[]), 11, 0);
    unequal.plan = vec![0];
    refuses(Call::CheckPlanBlock, &unequal, 10, 0);
}

#[test]
fn node_checks_in_order() {
    let refused = |job: &[u8], node, number| {
        plan_refused(&input(job.to_vec(), &[0], &[node]), number, 0);
    };
    let job = job_block(2, 2, &[(3, 1, 1, 0)]);
    refused(&job, (4, 9), 12);
    refused(&job, (1, 1), 13);
    refused(&job, (0, 1), 14);
    refused(&job, (2, 0), 14);
    refused(&job, (3, 2), 14);
    refused(&job, (1, 0), 15);
    refused(&job_block(3, 2, &[(3, 1, 1, 0)]), (1, 0), 16);
}

#[test]
fn kinds_larger_than_the_plate_count_in_the_full_demand_alone() {
    let job = input(job_block(3, 1, &[(1, 1, 1, 1), (9, 9, 1, 3)]), &[1, 1], &[]);
    answers(Call::Bound, &job, &[1, 1, 4, 2]);
    answers(Call::Bound, &job.with(FULL_DEMAND), &[3, 4, 4, 2]);
}

#[test]
fn cancelled_kinds_count_nowhere() {
    let job = job_block(2, 1, &[(1, 1, 1, 2), (1, 1, 5, 0)]);
    for choices in ALL_CHOICES {
        let job = |weights| input(job.clone(), weights, &[]).with(choices);
        answers(Call::Bound, &job(&[1, 1]), &[2, 2, 3, 2]);
        answers(Call::Bound, &job(&[1, 2]), &[2, 2, 3, 2]);
    }
}

#[test]
fn only_fitting_kinds_give_positions() {
    let job = job_block(6, 2, &[(2, 1, 1, 1), (3, 3, 1, 1)]);
    lists(&input(job, &[0, 0], &[]), &[0, 2, 4, 6], &[0, 1, 2]);
}

#[test]
fn short_lists_are_refused_even_where_few_positions_are() {
    let input = input(job_block(9, 9, &[(9, 9, 1, 1)]), &[0], &[(0, 0)]);
    let lists = [(9, 10), (10, 9), (9, 9)];
    for (lengths, widths) in lists {
        for call in WEIGHING_CALLS {
            let sizes = Sizes { lengths, widths, ..ROOM };
            let (code, lent) = compare(call, &input, sizes);
            assert_eq!((code, lent.answer.words()[0]), (19, 0));
            let fresh = Lent::new(sizes);
            assert!(lent.lengths == fresh.lengths && lent.widths == fresh.widths);
        }
    }
}

#[test]
fn short_table_answers_the_words_needed() {
    let input = input(job_s(), &[0, 1, 0], &[(0, 0)]);
    for call in WEIGHING_CALLS {
        let sizes = Sizes { table: 59, ..ROOM };
        let (code, lent) = compare(call, &input, sizes);
        assert_eq!((code, lent.answer.words()[0]), (20, 60));
        assert_eq!(lent.lengths.words()[..5], [0, 2, 3, 4, 5]);
        assert!(lent.table == Lent::new(sizes).table);
    }
}

#[test]
fn last_position_is_below_the_tabled_length() {
    let job = job_block(3, 2, &[(2, 1, 1, 1)]);
    writes(&input(job, &[0], &[(3, 1), (1, 0), (1, 0)]), 2);
}

#[test]
fn positions_rise_over_the_whole_range() {
    let job = job_block(3, 2, &[(3, 1, 1, 1), (2, 1, 2, 1)]);
    writes(&input(job, &[0, 0], &[(2, 2), (3, 1), (1, 1), (1, 1), (0, 0)]), 4);
}

#[test]
fn shares_rise_from_zero() {
    let job = job_block(1, 3, &[(1, 1, 1, 2)]);
    writes(&input(job, &[2], &[(3, 1), (0, 0), (3, 1), (1, 0), (1, 0)]), 2);
}

#[test]
fn figure_zero_is_waste_and_a_free_piece_is_a_piece() {
    let job = job_block(2, 1, &[(1, 1, 0, 1)]);
    writes(&input(job.clone(), &[0], &[(0, 0)]), 0);
    reports(&input(job, &[0], &[(2, 1), (1, 0), (0, 0)]), 0, [1, 1, 0, 0], &[1]);
}

#[test]
fn nodes_needed_are_counted_whole() {
    let input = input(job_block(50, 50, &[(1, 1, 1, 1)]), &[0], &[]);
    for nodes in [10, 4095, 5000] {
        let sizes = Sizes { table: 51 * 51, kinds: nodes, operands: nodes, ..ROOM };
        let (code, lent) = compare(Call::WritePlan, &input, sizes);
        assert_eq!((code, lent.answer.words()[0]), (21, 4999));
        let fresh = Lent::new(sizes);
        assert!(lent.kinds == fresh.kinds && lent.operands == fresh.operands);
        assert_eq!(lent.table.words()[51 * 51 - 1], 2500);
    }
}

#[test]
fn the_longest_plan_is_written() {
    let input = input(job_block(64, 32, &[(1, 1, 1, 1)]), &[0], &[]);
    let fits = Sizes { lengths: 65, table: 65 * 33, kinds: 4095, operands: 4095, ..ROOM };
    let (code, lent) = compare(Call::WritePlan, &input, fits);
    assert_eq!((code, lent.answer.words()[4]), (0, 4095));
    for short in [Sizes { kinds: 4094, ..fits }, Sizes { operands: 4094, ..fits }] {
        let (code, lent) = compare(Call::WritePlan, &input, short);
        assert_eq!((code, lent.answer.words()[0]), (21, 4095));
    }
}

#[test]
fn either_array_may_be_short() {
    let input = input(job_s(), &[0, 1, 0], &[]);
    for (kinds, operands) in [(4, 5), (5, 4), (0, 64)] {
        let (code, lent) = compare(Call::WritePlan, &input, Sizes { kinds, operands, ..ROOM });
        assert_eq!((code, lent.answer.words()[0]), (21, 5));
    }
}
