// The greatest and the first refused values: sides, kinds, demands, nodes, words of the table.
// Also how the answer slice itself and the word of choices are treated.
use crate::examples::{answers, input, plan_refused, refuses, reports, Node};
use crate::lent::{Lent, Sizes, AMPLE};
use crate::run::{compare, Call, Input, ALL_CALLS, ALL_CHOICES};
use outside::answers::{ANSWER_TOO_SHORT, UNKNOWN_CHOICE};
use outside::blocks::{job_block, job_s, Kind};

const ROOM: Sizes = Sizes { table: 1 << 18, ..AMPLE };

#[test]
fn sides_up_to_1000() {
    let plate = |l, w| input(job_block(l, w, &[(500, 1, 3, 1)]), &[0], &[(0, 0)]);
    answers(Call::Bound, &plate(1000, 1), &[6, 0, 3, 2]);
    answers(Call::Bound, &plate(1, 1000), &[0, 0, 1, 1]);
    for (l, w) in [(1001, 1), (1, 1001), (0, 1), (1, 0)] {
        refuses(Call::Bound, &plate(l, w), 2, 0);
    }
    let side = |l, w| input(job_block(5, 5, &[(1, 1, 1, 1), (l, w, 3, 1)]), &[0, 0], &[(0, 0)]);
    answers(Call::Bound, &side(1000, 1000), &[25, 0, 6, 6]);
    for (l, w) in [(1001, 1), (1, 1001), (0, 1), (1, 0)] {
        refuses(Call::Bound, &side(l, w), 5, 1);
    }
}

#[test]
fn up_to_64_kinds() {
    let kinds: Vec<Kind> = (0..65).map(|i| (1 + i % 13, 9 - i % 7, 1 + u32::from(i), 1)).collect();
    let job = |n: usize| input(job_block(13, 9, &kinds[..n]), &vec![1; n], &[(1, 63)]);
    for choices in ALL_CHOICES {
        for call in ALL_CALLS {
            let code = if call == Call::Exact { 30 } else { 0 };
            assert_eq!(compare(call, &job(64).with(choices), ROOM).0, code);
            refuses(call, &job(65).with(choices), 3, 0);
        }
    }
}

#[test]
fn words_needed_are_counted_in_64_bits() {
    let job = job_block(1000, 1000, &[(1, 1, 1, 255), (1, 1, 1, 15)]);
    for choices in ALL_CHOICES {
        let input = input(job.clone(), &[16, 1], &[]).with(choices);
        let (code, lent) = compare(Call::Bound, &input, ROOM);
        assert_eq!((code, lent.answer.words()[0]), (20, 4_104_196_096));
    }
}

#[test]
fn prices_and_demands() {
    let job = |price, demand| input(job_block(1, 1, &[(1, 1, price, demand)]), &[0], &[(1, 0)]);
    reports(&job(1_000_000, 255), 1_000_000, [1, 0, 0, 0], &[1]);
    plan_refused(&job(1_000_001, 255), 6, 0);
    plan_refused(&job(1_000_000, 256), 7, 0);
    plan_refused(&job(1_000_000, 0), 16, 0);
}

/// A grid of the 64 by 32 plate into units, whose leaves are given by their number.
fn grid(leaf: impl Fn(usize) -> Node) -> Vec<Node> {
    let mut nodes = Vec::new();
    for column in 0..64 {
        nodes.extend((column < 63).then_some((2, 1)));
        for row in 0..32 {
            nodes.extend((row < 31).then_some((3, 1)));
            nodes.push(leaf(32 * column + row));
        }
    }
    nodes
}

#[test]
fn plans_of_4095_nodes_pass() {
    let kinds: Vec<Kind> = vec![(1, 1, 1_000_000, 32); 64];
    let nodes = grid(|i| (1, (i / 32) as u16));
    assert_eq!(nodes.len(), 4095);
    let full = input(job_block(64, 32, &kinds), &[0; 64], &nodes);
    reports(&full, 2_048_000_000, [2048, 0, 0, 0], &[32; 64]);
    answers(Call::Certify, &full, &[0, 2_048_000_000, 2_048_000_000]);
}

#[test]
fn one_demand_is_passed_late_in_a_long_plan() {
    let mut kinds: Vec<Kind> = vec![(1, 1, 1, 32); 64];
    kinds[63].3 = 31;
    let nodes = grid(|i| (1, (i / 32) as u16));
    plan_refused(&input(job_block(64, 32, &kinds), &[0; 64], &nodes), 16, 4094);
}

#[test]
fn plans_of_4096_nodes_are_refused() {
    let mut nodes = grid(|i| (u8::from(i % 32 == 31), 0));
    let job = job_block(64, 32, &[(1, 1, 1, 64)]);
    reports(&input(job.clone(), &[0], &nodes), 64, [64, 1984, 0, 0], &[64]);
    nodes.push((0, 0));
    plan_refused(&input(job.clone(), &[0], &nodes), 11, 0);
    plan_refused(&input(job, &[0], &vec![(0, 0); 65_535]), 11, 0);
}

/// Words of choices with a bit that has no meaning, alone and beside the others.
const UNKNOWN_CHOICES: [u32; 8] = [16, 17, 18, 24, 31, 32, 1 << 31 | 7, u32::MAX];

/// A code that comes before all others, with no change of memory.
fn nothing_is_changed(call: Call, input: &Input, answer: usize, code: u32) {
    let sizes = Sizes { answer, ..ROOM };
    let (given, lent) = compare(call, input, sizes);
    assert_eq!((given, lent.differences(&Lent::new(sizes))), (code, vec![]));
}

#[test]
fn short_answers_change_nothing() {
    for call in ALL_CALLS {
        for choices in ALL_CHOICES.into_iter().chain(UNKNOWN_CHOICES) {
            let input = input(job_s(), &[0, 1, 0], &[(0, 0)]).with(choices);
            for answer in [0, call.answer_words() / 2, call.answer_words() - 1] {
                nothing_is_changed(call, &input, answer, ANSWER_TOO_SHORT);
            }
        }
    }
}

#[test]
fn unknown_choices_change_nothing() {
    for choices in UNKNOWN_CHOICES {
        for call in ALL_CALLS {
            for job in [job_s(), vec![]] {
                let input = input(job, &[0, 1, 0], &[(0, 0)]).with(choices);
                nothing_is_changed(call, &input, call.answer_words(), UNKNOWN_CHOICE);
            }
        }
    }
}
