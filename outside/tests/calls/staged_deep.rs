// The deepest and the longest inputs of the calls with a limit, on a thread with a small stack: plans
// of eight stages whose direction changes evenly, at every cut or late, nested in first or in second
// parts; and the largest tables.
use crate::deep::{agrees, many_kinds, LARGE, UNIT};
use crate::examples::{input, Node};
use crate::lent::{Lent, Sizes};
use crate::run::{Call, Input, ALL_CHOICES};
use crate::stack::{needed_by, on_small_stack};
use outside::answers::{Words, TURNING};
use outside::baseline;
use outside::blocks::kerf_block;
use outside::reference::{normal_positions, Job};

/// Runs of cuts, each of the other direction than the one before: how many cuts each has. A side of
/// 1,000 has room for so many cuts.
fn runs_of_eight_stages(cuts: usize) -> [[usize; 8]; 3] {
    let (few, rest) = (cuts / 4, cuts - 3);
    [[few; 8], [1, 1, 1, 1, 1, 1, 1, rest], [rest, rest, 1, 1, 1, 1, 1, 1]]
}

/// Each cut takes one unit and the kerf off a side of 1,000: its direction and what is left.
fn cuts(runs: &[usize], kerf: u16) -> Vec<Node> {
    let mut sides = [1000; 2];
    let run = |(i, &cuts)| std::iter::repeat_n(i % 2, cuts);
    let directions = runs.iter().enumerate().flat_map(run);
    let cut = |direction: usize| {
        sides[direction] -= kerf + 1;
        (2 + direction as u8, sides[direction])
    };
    directions.map(cut).collect()
}

/// Each cut inside the first part of the one before, so that all second parts wait together; and inside
/// the second. The only piece is in the last part.
fn nested(cuts: &[Node]) -> [Vec<Node>; 2] {
    let leaves = std::iter::repeat_n((0, 0), cuts.len());
    let slices = cuts.iter().flat_map(|&(kind, _)| [(kind, 1), (0, 0)]);
    [cuts.iter().copied().chain([UNIT]).chain(leaves).collect(), slices.chain([UNIT]).collect()]
}

/// Both parts of every cut are cut in the other direction, down to this depth; a unit in each last
/// first part.
fn bush(kind: u8, depth: usize, sides: [u16; 2]) -> Vec<Node> {
    let mut half = sides;
    let side = &mut half[usize::from(kind) - 2];
    *side /= 2;
    let cut = (kind, *side);
    if depth == 1 {
        return vec![cut, UNIT, (0, 0)];
    }
    let part = bush(5 - kind, depth - 1, half);
    [vec![cut], part.clone(), part].concat()
}

fn job(kerf: u16, nodes: &[Node], limit: u32) -> Input {
    input(kerf_block(1000, 1000, kerf, &[(1, 1, 7, 255)]), &[0], nodes).within(limit)
}

/// The deepest need of stack that was measured.
#[derive(Default)]
struct Deepest(usize);

impl Deepest {
    /// Expects the reference's code and memory on a small stack, and this code.
    fn agrees(&mut self, call: Call, input: &Input, sizes: Sizes, code: u32) -> Lent {
        self.0 = self.0.max(needed_by(call, input, sizes));
        let (given, lent) = agrees(call, input, sizes);
        assert_eq!(given, code, "{call:?}");
        lent
    }
}

#[test]
fn plans_of_eight_stages_are_checked() {
    let (mut check, mut certificate) = (Deepest::default(), Deepest::default());
    let no_lists = Sizes { lengths: 0, widths: 0, ..LARGE };
    let mut plans = vec![(0, bush(2, 8, [1000; 2])), (0, bush(3, 8, [1000; 2]))];
    for kerf in [0, 1, 20] {
        let runs = runs_of_eight_stages(999 / (usize::from(kerf) + 1));
        plans.extend(runs.iter().flat_map(|runs| nested(&cuts(runs, kerf)).map(|plan| (kerf, plan))));
    }
    for (kerf, nodes) in plans {
        let lent = check.agrees(Call::CheckPlanStaged, &job(kerf, &nodes, 8), LARGE, 0);
        assert_eq!(lent.answer.words()[69], 8);
        check.agrees(Call::CheckPlanStaged, &job(kerf, &nodes, 7), LARGE, 23);
        certificate.agrees(Call::CertifyStaged, &job(kerf, &nodes, 8), no_lists, 19);
        certificate.agrees(Call::CertifyStaged, &job(kerf, &nodes, 7), no_lists, 23);
    }
    println!("deepest: CheckPlanStaged {} bytes of stack, CertifyStaged {}", check.0, certificate.0);
}

/// A thousand changes of direction, and a plan that ends where it is deepest.
#[test]
fn deeper_plans_are_refused() {
    let mut deepest = Deepest::default();
    let alternating = cuts(&[1; 1998], 0);
    for nodes in nested(&alternating) {
        for limit in [1, 2, 7, 8] {
            let lent = deepest.agrees(Call::CheckPlanStaged, &job(0, &nodes, limit), LARGE, 23);
            let place = if nodes[1].0 == 0 { 2 * limit } else { limit };
            assert_eq!(lent.answer.words()[0], u64::from(place));
        }
    }
    let ended = job(0, &alternating, 8);
    let lent = deepest.agrees(Call::CheckPlanStaged, &ended, LARGE, 17);
    assert_eq!(lent.answer.words()[0], 1998);
    println!("deepest: CheckPlanStaged of refused plans {} bytes of stack", deepest.0);
}

/// Units on a plate that holds 250 each way; the whole table within eight stages.
#[test]
fn plans_of_eight_stages_are_certified() {
    let mut deepest = Deepest::default();
    let sizes = Sizes { table: 17 * 251 * 251, ..LARGE };
    for nodes in nested(&cuts(&runs_of_eight_stages(249)[0], 3)) {
        let input = job(3, &nodes, 8);
        deepest.0 = deepest.0.max(needed_by(Call::CertifyStaged, &input, sizes));
        let (code, lent) = on_small_stack(Call::CertifyStaged, &input, sizes);
        let bound = 7 * 250 * 250;
        assert_eq!((code, &lent.answer.words()[..3]), (0, &[bound - 7, bound, 7][..]));
        let end = lent.table.words().chunks(251).rev().step_by(251).take(17);
        let last: Vec<u64> = end.map(|row| row[250]).collect();
        assert_eq!(last, [&[bound; 14][..], &[1750, 1750, 7]].concat());
    }
    println!("deepest: CertifyStaged with its table {} bytes of stack", deepest.0);
}

/// 64 kinds on the largest plate, and the greatest capacity on a small one. What is expected comes from
/// the baseline, for the reference is too slow here.
#[test]
fn largest_staged_tables_are_filled() {
    let free = |kerf| input(kerf_block(1000, 1000, kerf, &many_kinds(60)), &[0; 64], &[(0, 0)]);
    is_filled(&free(0).within(8), 0);
    is_filled(&free(20).with(TURNING).within(3), 0);
    let mut weights = [64; 64];
    weights[0] = 63;
    let weighed = |kerf| input(kerf_block(12, 9, kerf, &many_kinds(9)), &weights, &[(0, 0)]);
    for (choices, limit) in ALL_CHOICES.into_iter().zip([8, 1, 2, 3]) {
        is_filled(&weighed(0).with(choices).within(limit), 4095);
        is_filled(&weighed(2).with(choices).within(limit), 4095);
    }
}

fn is_filled(input: &Input, capacity: usize) {
    let (lengths, widths) = normal_positions(&Job::read(&input.job, input.choices).expect("a job"));
    let (p, r) = (lengths.len(), widths.len());
    let blocks = 2 * input.limit as usize + 1;
    let sizes = Sizes { table: blocks * p * r * (capacity + 1), ..LARGE };
    let mut filled = Lent::new(sizes);
    let Input { job, choices, weights, limit, .. } = input;
    // SAFETY: the job is accepted, and the table is as large as it must be.
    let bound =
        unsafe { baseline::c::bound_staged(job, *choices, weights, *limit, filled.split().0).to_words() };
    assert_eq!(bound[1..], [capacity, p, r].map(|number| number as u64));
    let certificate = [bound[0], bound[0], 0];
    for (call, answer) in [(Call::BoundStaged, &bound[..]), (Call::CertifyStaged, &certificate)] {
        let (code, lent) = on_small_stack(call, input, sizes);
        assert_eq!((code, &lent.answer.words()[..answer.len()]), (0, answer));
        assert!(lent.table == filled.table && lent.lengths == filled.lengths);
        assert!(lent.widths == filled.widths);
    }
}
