// The marked examples of the scope, on the reference and on the proved calls, with the new block and,
// where the kerf is 0, with the old one too.
// Each says what a call answers; refusals are a number and a place.
use crate::lent::{Lent, Sizes, AMPLE};
use crate::run::{Call, Input, IMPLEMENTATIONS};
use outside::answers::REPORT_WORDS;
use outside::blocks::{job_block, job_s, plan_block};

/// A node: kind and operand.
pub type Node = (u8, u16);

/// An input without a choice and without second weights, within the greatest limit, at the job's own sizes
/// and with multipliers of 0.
pub fn input(job: Vec<u8>, weights: &[u8], nodes: &[Node]) -> Input {
    let kinds: Vec<u8> = nodes.iter().map(|node| node.0).collect();
    let operands: Vec<u16> = nodes.iter().map(|node| node.1).collect();
    let plan = plan_block(&kinds, &operands);
    let (second, multipliers) = (vec![0; weights.len()], vec![0; weights.len()]);
    let (sizes, weights) = (own_sizes(&job), weights.to_vec());
    let given = Input { job, weights, second, limit: 8, kinds, operands, plan, ..Input::default() };
    Input { sizes, multipliers, ..given }
}

/// The sizes of a job block, new or old, as true sizes; something for a block cut short.
fn own_sizes(job: &[u8]) -> Vec<u8> {
    let field = |at: usize| job.get(at..at + 2).map_or(1, |two| u16::from_le_bytes([two[0], two[1]]));
    let n = usize::from(field(4)).min(64);
    let header = if job.len() == 6 + 10 * n { 6 } else { 8 };
    let kerf = if header == 6 { 0 } else { field(6) };
    let sides = (0..2 * n).map(|i| field(header + 2 * i));
    let sizes = [field(0), field(2), kerf].into_iter().chain(sides);
    sizes.flat_map(|size| u32::from(size).to_le_bytes()).collect()
}

/// Expects each implementation to answer these words.
pub fn answers(call: Call, input: &Input, words: &[u64]) {
    begins(call, input, 0, words);
}

/// Expects each implementation to refuse.
pub fn refuses(call: Call, input: &Input, number: u32, place: u64) {
    begins(call, input, number, &[place]);
}

/// Expects a plan check, of arrays, of the block and within a limit, to report profit, copies and the
/// areas of pieces, waste, trim and sawdust.
pub fn reports(input: &Input, profit: u64, areas: [u64; 4], copies: &[u64]) {
    let mut words = vec![profit, areas[0], areas[1], areas[2]];
    words.extend(copies);
    words.resize(REPORT_WORDS, 0);
    words[68] = areas[3];
    for call in [Call::CheckPlan, Call::CheckPlanBlock, Call::CheckPlanStaged] {
        answers(call, input, &words);
    }
}

/// Expects the plan checks and the certificates to refuse.
pub fn plan_refused(input: &Input, number: u32, place: u64) {
    let staged = [Call::CheckPlanStaged, Call::CertifyStaged];
    for call in [Call::CheckPlan, Call::CheckPlanBlock, Call::Certify].into_iter().chain(staged) {
        refuses(call, input, number, place);
    }
}

/// Expects a written plan, that of the input, and the bound.
pub fn writes(expected: &Input, bound: u64) {
    leaves_plan(Call::WritePlan, expected, bound);
}

/// Expects a call to write the input's plan and to answer this first.
pub fn leaves_plan(call: Call, expected: &Input, bound: u64) {
    let nodes = expected.kinds.len();
    for_each(call, expected, 0, |lent, name| {
        let answer = lent.answer.words();
        assert_eq!((answer[0], answer[4]), (bound, nodes as u64), "{name}");
        assert_eq!(lent.kinds.words()[..nodes], expected.kinds, "{name}");
        assert_eq!(lent.operands.words()[..nodes], expected.operands, "{name}");
    });
}

/// Expects these nodes as the neat plan.
pub fn tidies(input: &Input, nodes: &[Node]) {
    let kinds: Vec<u8> = nodes.iter().map(|node| node.0).collect();
    let operands: Vec<u16> = nodes.iter().map(|node| node.1).collect();
    for_each(Call::NeatPlan, input, 0, |lent, name| {
        assert_eq!(lent.answer.words()[0], nodes.len() as u64, "{name}");
        assert_eq!(lent.kinds.words()[..nodes.len()], kinds, "{name}");
        assert_eq!(lent.operands.words()[..nodes.len()], operands, "{name}");
    });
}

/// Expects two inputs to leave the same memory, the second's written nodes being renumbered.
pub fn writes_alike(call: Call, inputs: &[Input; 2], renumber: impl Fn(Node) -> Node) {
    for calls in IMPLEMENTATIONS {
        let [first, mut second] = inputs.each_ref().map(|input| {
            let mut lent = Lent::new(AMPLE);
            assert_eq!(call.run(&calls, input, &mut lent), 0, "{}", calls.name);
            lent
        });
        let nodes = second.answer.words()[4] as usize;
        let plan = second.split().1;
        for (kind, operand) in plan.kinds.iter_mut().zip(plan.operands).take(nodes) {
            (*kind, *operand) = renumber((*kind, *operand));
        }
        assert_eq!(first.differences(&second), [""; 0], "{} {inputs:?}", calls.name);
    }
}

/// Expects the lists that a bound leaves.
pub fn lists(input: &Input, lengths: &[u16], widths: &[u16]) {
    for_each(Call::Bound, input, 0, |lent, name| {
        assert_eq!(lent.lengths.words()[..lengths.len()], *lengths, "{name}");
        assert_eq!(lent.widths.words()[..widths.len()], *widths, "{name}");
        let counts = [lengths.len() as u64, widths.len() as u64];
        assert_eq!(lent.answer.words()[2..4], counts, "{name}");
    });
}

/// Expects each implementation to give a code and these first words.
fn begins(call: Call, input: &Input, code: u32, words: &[u64]) {
    for_each(call, input, code, |lent, name| {
        assert_eq!(lent.answer.words()[..words.len()], *words, "{name} {call:?}");
    });
}

/// Expects a code of each implementation in each form of the block, and hands on the memory and the
/// implementation's name.
fn for_each(call: Call, input: &Input, code: u32, expect: impl Fn(&Lent, &str)) {
    for calls in IMPLEMENTATIONS {
        for form in input.block_forms() {
            let mut lent = Lent::new(AMPLE);
            let given = call.run(&calls, &form, &mut lent);
            assert_eq!(given, code, "{} {call:?} {form:?}", calls.name);
            expect(&lent, calls.name);
        }
    }
}

const BEST_OF_S: [Node; 5] = [(2, 2), (1, 0), (3, 1), (1, 1), (1, 2)];

#[test]
fn normal_positions_of_s() {
    lists(&input(job_s(), &[0, 0, 0], &[]), &[0, 2, 3, 4, 5], &[0, 1, 2, 3]);
}

#[test]
fn bounds_of_s() {
    answers(Call::Bound, &input(job_s(), &[0, 0, 0], &[]), &[19, 0, 5, 4]);
    answers(Call::Bound, &input(job_s(), &[0, 1, 0], &[]), &[16, 2, 5, 4]);
}

#[test]
fn table_words_of_s() {
    for (weights, words) in [([0, 0, 0], 20), ([0, 1, 0], 60)] {
        for calls in IMPLEMENTATIONS {
            let sizes = Sizes { table: words - 1, ..AMPLE };
            let (mut short, mut enough) = (Lent::new(sizes), Lent::new(AMPLE));
            let input = input(job_s(), &weights, &[]);
            assert_eq!(Call::Bound.run(&calls, &input, &mut short), 20);
            assert_eq!(short.answer.words()[0], words as u64);
            assert_eq!(Call::Bound.run(&calls, &input, &mut enough), 0);
            let fresh = Lent::new(AMPLE);
            assert_eq!(enough.table.words()[words..], fresh.table.words()[words..]);
        }
    }
}

#[test]
fn best_plan_of_s() {
    let best = input(job_s(), &[0, 1, 0], &BEST_OF_S);
    reports(&best, 16, [13, 0, 2, 0], &[1, 1, 1]);
    answers(Call::Certify, &best, &[0, 16, 16]);
    answers(Call::Certify, &input(job_s(), &[0, 0, 0], &BEST_OF_S), &[3, 19, 16]);
}

#[test]
fn written_plan_of_s() {
    writes(&input(job_s(), &[0, 1, 0], &BEST_OF_S), 16);
}

#[test]
fn single_nodes_of_s() {
    reports(&input(job_s(), &[0, 0, 0], &[(0, 0)]), 0, [0, 15, 0, 0], &[]);
    reports(&input(job_s(), &[0, 0, 0], &[(1, 0)]), 7, [6, 0, 9, 0], &[1]);
}

#[test]
fn third_copy_passes_its_demand() {
    let nodes = [(2, 2), (1, 0), (3, 1), (1, 1), (3, 1), (1, 1), (1, 1)];
    plan_refused(&input(job_s(), &[0, 0, 0], &nodes), 16, 6);
}

#[test]
fn cut_positions_of_s() {
    plan_refused(&input(job_s(), &[0, 0, 0], &[(2, 5), (0, 0), (0, 0)]), 14, 0);
    reports(&input(job_s(), &[0, 0, 0], &[(2, 4), (1, 0), (0, 0)]), 7, [6, 3, 6, 0], &[1]);
    plan_refused(&input(job_s(), &[0, 0, 0], &[(2, 4), (0, 0), (0, 0)]), 26, 0);
}

#[test]
fn too_few_and_too_many_nodes() {
    plan_refused(&input(job_s(), &[0, 0, 0], &[(2, 2), (1, 0)]), 17, 2);
    plan_refused(&input(job_s(), &[0, 0, 0], &[(0, 0), (0, 0)]), 18, 1);
}

#[test]
fn nothing_fits() {
    let waste = input(job_block(1, 1, &[(2, 2, 5, 1)]), &[0], &[(0, 0)]);
    lists(&waste, &[0], &[0]);
    writes(&waste, 0);
}

#[test]
fn zero_ordered_means_zero() {
    let waste = input(job_block(2, 3, &[(2, 3, 7, 0)]), &[0], &[(0, 0)]);
    answers(Call::Bound, &waste, &[0, 0, 1, 1]);
    writes(&waste, 0);
}
