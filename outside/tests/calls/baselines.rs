// The benchmark's baselines against the reference: same answer and same memory on accepted jobs, and of
// checks of plans the same refusals.
// What they take as given is given here: an accepted job and storage that the reference found enough; for
// checks the new block and plan arrays of one length.
use crate::damage::damage;
use crate::inputs::{draw, short_order, Scale, SMALL};
use crate::lent::{Lent, Sizes, AMPLE};
use crate::run::{Call, Input, ALL_CHOICES};
use outside::answers::{PlanArrays, Storage, Words, Written, FOUND_WORDS, FULL_DEMAND, TURNING};
use outside::baseline::checks;
use outside::calls::Calls;
use outside::random::Random;
use outside::{baseline, reference};
use std::collections::BTreeMap;

const ROOM: Sizes = Sizes { lengths: 120, widths: 120, table: 1 << 18, answer: 5, ..AMPLE };

const TWO_ROOM: Sizes = Sizes { table: 1 << 20, ..ROOM };

const STAGED_ROOM: Sizes = Sizes { table: 1 << 20, answer: 4, ..ROOM };

type WritePlan = fn(&[u8], u32, &[u8], Storage<'_>, PlanArrays<'_>) -> Written;

fn in_c(job: &[u8], c: u32, weights: &[u8], storage: Storage, plan: PlanArrays) -> Written {
    // SAFETY: the reference has found the storage enough.
    unsafe { baseline::c::write_plan(job, c, weights, storage, plan) }
}

fn written(input: &Input, write_plan: WritePlan) -> Lent {
    let mut lent = Lent::new(ROOM);
    let (storage, plan, answer) = lent.split();
    let Input { job, choices, weights, .. } = input;
    answer.copy_from_slice(&write_plan(job, *choices, weights, storage, plan).to_words());
    lent
}

/// Compares both baselines on so many jobs, the words of choices taking turns, those left out that
/// the reference refuses.
fn baselines_agree(seed: u64, jobs: usize, scale: Scale) {
    let random = &mut Random::new(seed);
    let mut compared = 0;
    for i in 0..jobs {
        let input = draw(random, scale, ALL_CHOICES[i % 4]);
        let mut expected = Lent::new(ROOM);
        if Call::WritePlan.run(&reference::calls::CALLS, &input, &mut expected) == 0 {
            compared += 1;
            for write_plan in [baseline::rust::write_plan, in_c] {
                assert_eq!(expected.differences(&written(&input, write_plan)), [""; 0], "{input:?}");
            }
        }
    }
    println!("{compared} of {jobs} jobs compared");
    assert!(10 * compared >= 9 * jobs);
}

/// Compares the staged baseline on so many jobs, the limits and the words of choices taking turns.
fn staged_baseline_agrees(seed: u64, jobs: usize, scale: Scale) {
    let random = &mut Random::new(seed);
    let mut compared = 0;
    for i in 0..jobs {
        let input = draw(random, scale, ALL_CHOICES[i % 4]).within((i / 4 % 8) as u32 + 1);
        let (mut expected, mut lent) = (Lent::new(STAGED_ROOM), Lent::new(STAGED_ROOM));
        if Call::BoundStaged.run(&reference::calls::CALLS, &input, &mut expected) == 0 {
            compared += 1;
            let (storage, _, answer) = lent.split();
            let Input { job, choices, weights, limit, .. } = &input;
            // SAFETY: the reference has found the storage enough.
            let bound = unsafe { baseline::c::bound_staged(job, *choices, weights, *limit, storage) };
            answer.copy_from_slice(&bound.to_words());
            assert_eq!(expected.differences(&lent), [""; 0], "{input:?}");
        }
    }
    println!("{compared} of {jobs} jobs compared");
    assert!(10 * compared >= 9 * jobs);
}

#[test]
fn the_staged_baseline_agrees() {
    let shares = Scale { plate: 12, kerf: 3, side: 7, kinds: 6, price: 30, weight: 3, ..SMALL };
    staged_baseline_agrees(14, 2000, shares);
    let many = Scale { plate: 5, side: 3, price: 50, demand: 6, weight: 40, ..SMALL };
    staged_baseline_agrees(15, 400, many);
    let none = Scale { plate: 40, kerf: 20, side: 25, kinds: 9, price: 400, weight: 0, ..SMALL };
    staged_baseline_agrees(16, 400, none);
}

/// Compares the baseline of two weights on so many jobs, the words of choices taking turns.
fn baseline_of_two_agrees(seed: u64, jobs: usize, scale: Scale) {
    let random = &mut Random::new(seed);
    let mut compared = 0;
    for i in 0..jobs {
        let input = draw(random, scale, ALL_CHOICES[i % 4]);
        let second: Vec<u8> =
            input.weights.iter().map(|_| random.from(0, scale.weight.min(3)) as u8).collect();
        let input = input.and(&second);
        let (mut expected, mut lent) = (Lent::new(TWO_ROOM), Lent::new(TWO_ROOM));
        if Call::BoundTwo.run(&reference::calls::CALLS, &input, &mut expected) == 0 {
            compared += 1;
            let (storage, _, answer) = lent.split();
            let Input { job, choices, weights, second, .. } = &input;
            // SAFETY: the reference has found the storage enough.
            let bound = unsafe { baseline::c::bound_two(job, *choices, weights, second, storage) };
            answer.copy_from_slice(&bound.to_words());
            assert_eq!(expected.differences(&lent), [""; 0], "{input:?}");
        }
    }
    println!("{compared} of {jobs} jobs compared");
    assert!(10 * compared >= 9 * jobs);
}

#[test]
fn the_baseline_of_two_weights_agrees() {
    let shares = Scale { plate: 10, kerf: 3, side: 6, kinds: 5, price: 30, weight: 2, ..SMALL };
    baseline_of_two_agrees(17, 1500, shares);
    let many = Scale { plate: 4, side: 3, kinds: 3, price: 50, demand: 3, weight: 20, ..SMALL };
    baseline_of_two_agrees(18, 300, many);
}

/// Compares the baseline of short orders on so many jobs, the words of choices taking turns.
fn exact_baseline_agrees(seed: u64, jobs: usize, scale: Scale) {
    let random = &mut Random::new(seed);
    let mut compared = 0;
    for i in 0..jobs {
        let input = draw(random, scale, ALL_CHOICES[i % 4]);
        let input = short_order(random, &input, scale.work);
        let (mut expected, mut lent) = (Lent::new(TWO_ROOM), Lent::new(TWO_ROOM));
        if Call::Exact.run(&reference::calls::CALLS, &input, &mut expected) == 0 {
            compared += 1;
            let (storage, plan, answer) = lent.split();
            // SAFETY: the reference has found the storage enough.
            let exact = unsafe { baseline::c::exact(&input.job, input.choices, storage, plan) };
            answer.copy_from_slice(&exact.to_words());
            assert_eq!(expected.differences(&lent), [""; 0], "{input:?}");
        }
    }
    println!("{compared} of {jobs} jobs compared");
    assert!(10 * compared >= 8 * jobs);
}

#[test]
fn the_baseline_of_short_orders_agrees() {
    let few = Scale { plate: 12, kerf: 3, side: 7, kinds: 6, price: 30, work: 1_000_000, ..SMALL };
    exact_baseline_agrees(19, 2000, few);
    let many = Scale { plate: 5, side: 3, kinds: 12, price: 50, work: 20_000_000, ..SMALL };
    exact_baseline_agrees(20, 300, many);
}

/// Compares the baseline of the rounds on so many jobs whose lent plan passes, the words of choices
/// taking turns.
fn baseline_of_rounds_agrees(seed: u64, jobs: usize, scale: Scale) {
    let random = &mut Random::new(seed);
    let room = Sizes { table: 1 << 12, answer: FOUND_WORDS, ..ROOM };
    let (mut compared, mut rounds) = (0, 0);
    for i in 0..jobs {
        let input = draw(random, scale, ALL_CHOICES[i % 4]);
        let Input { job, choices, kinds, operands, .. } = &input;
        let (mut expected, mut lent) = (Lent::new(room), Lent::new(room));
        if Call::FindWeights.run(&reference::calls::CALLS, &input, &mut expected) == 0 {
            compared += 1;
            let lower = reference::check_plan(job, *choices, kinds, operands).expect("a plan").profit;
            let (storage, plan, answer) = lent.split();
            // SAFETY: the reference has found the storage enough.
            let found = unsafe { baseline::c::find_weights(job, *choices, lower, storage, plan) };
            answer.copy_from_slice(&found.to_words());
            assert_eq!(expected.differences(&lent), [""; 0], "{input:?}");
            rounds += found.rounds;
        }
    }
    println!("{compared} of {jobs} jobs compared, {rounds} rounds");
    assert!(10 * compared >= 6 * jobs);
}

#[test]
fn the_baseline_of_the_rounds_agrees() {
    let few = Scale { plate: 8, kerf: 3, side: 4, kinds: 6, price: 30, demand: 2, ..SMALL };
    baseline_of_rounds_agrees(21, 2000, few);
    let dear = Scale { plate: 4, side: 2, price: 1_000_000, ..few };
    baseline_of_rounds_agrees(22, 300, dear);
}

#[test]
fn baselines_agree_with_shares() {
    let scale = Scale { plate: 12, kerf: 3, side: 7, kinds: 6, price: 30, weight: 3, ..SMALL };
    baselines_agree(11, 6000, scale);
}

#[test]
fn baselines_agree_with_many_shares() {
    let scale = Scale { plate: 5, side: 3, price: 50, demand: 6, weight: 40, ..SMALL };
    baselines_agree(13, 1000, scale);
}

#[test]
fn baselines_agree_without_weights() {
    let scale = Scale { plate: 60, kerf: 20, side: 40, kinds: 9, price: 400, weight: 0, ..SMALL };
    baselines_agree(12, 400, scale);
}

/// The calls of the C baseline that check a plan or a model, and those over one bound; the reference's in
/// place of all others.
const IN_C: Calls = Calls {
    name: "C",
    check_plan: checks::check_plan,
    check_plan_block: checks::check_plan_block,
    check_plan_staged: checks::check_plan_staged,
    neat_plan: checks::neat_plan,
    certify: |job, choices, weights, kinds, operands, storage, answer| {
        // SAFETY: `may_get` has let the input pass.
        unsafe { checks::certify(job, choices, weights, kinds, operands, storage, answer) }
    },
    certify_staged: |job, choices, weights, limit, kinds, operands, storage, answer| {
        // SAFETY: `may_get` has let the input pass.
        unsafe { checks::certify_staged(job, choices, weights, limit, kinds, operands, storage, answer) }
    },
    check_model: |job, choices, sizes, answer| {
        // SAFETY: `may_get` has let the input pass.
        unsafe { checks::check_model(job, choices, sizes, answer) }
    },
    true_plan: |job, choices, sizes, kinds, operands, plan, answer| {
        // SAFETY: `may_get` has let the input pass.
        unsafe { checks::true_plan(job, choices, sizes, kinds, operands, plan, answer) }
    },
    plates_needed: |job, choices, weights, other, storage, answer| {
        // SAFETY: `may_get` has let the input pass.
        let needed = unsafe { baseline::c::plates_needed(job, choices, weights, other, storage) };
        answer[..3].copy_from_slice(&needed.to_words());
        0
    },
    bound_lagrangian: |job, choices, weights, multipliers, storage, answer| {
        // SAFETY: `may_get` has let the input pass.
        let bound = unsafe { baseline::c::bound_lagrangian(job, choices, weights, multipliers, storage) };
        answer[..5].copy_from_slice(&bound.to_words());
        0
    },
    ..reference::calls::CALLS
};

/// Whether the baseline may get an input to which the reference answers so: it trusts its caller for what it
/// does not check itself.
fn may_get(call: Call, code: u32) -> bool {
    match call {
        Call::Certify | Call::CertifyStaged => matches!(code, 0 | 11..=18 | 23 | 26),
        Call::CheckModel => matches!(code, 0..=7 | 27 | 33),
        Call::TruePlan => matches!(code, 0..=7 | 27 | 11..=18 | 26),
        Call::PlatesNeeded | Call::BoundLagrangian => code == 0,
        _ => true,
    }
}

/// Compares a call on an input that the baseline may get, and gives what it answers.
fn check_agrees(call: Call, input: &Input) -> Option<u32> {
    let (mut expected, mut lent) = (Lent::new(AMPLE), Lent::new(AMPLE));
    let code = call.run(&reference::calls::CALLS, input, &mut expected);
    if !may_get(call, code) {
        return None;
    }
    assert_eq!(call.run(&IN_C, input, &mut lent), code, "{call:?} {input:?}");
    assert_eq!(expected.differences(&lent), [""; 0], "{call:?} {input:?}");
    Some(code)
}

/// Compares the saw's check and the part of a node.
fn saw_agrees(input: &Input, node: u64) {
    let Input { job, choices, kinds, operands, .. } = input;
    let [mut expected, mut given] = [[7; 70]; 2];
    let code = reference::calls::saw_check(job, *choices, kinds, operands, &mut expected);
    assert_eq!(checks::saw_check(job, *choices, kinds, operands, &mut given), code, "{input:?}");
    assert_eq!(given, expected, "{input:?}");
    reference::calls::saw_kinds(job, *choices, kinds, operands, node, &mut expected);
    checks::saw_part(job, *choices, kinds, operands, node, &mut given);
    assert_eq!(given, expected, "{input:?}");
}

#[test]
fn the_baselines_of_the_checks_agree() {
    let random = &mut Random::new(23);
    let scale = Scale { plate: 12, demand: 6, ..SMALL };
    let calls = [
        Call::CheckPlan,
        Call::CheckPlanBlock,
        Call::CheckPlanStaged,
        Call::NeatPlan,
        Call::Certify,
        Call::CertifyStaged,
        Call::CheckModel,
        Call::TruePlan,
        Call::PlatesNeeded,
        Call::BoundLagrangian,
    ];
    let mut met = BTreeMap::<u32, usize>::new();
    for i in 0..6000 {
        let limit = random.pick(&[0, 1, 1, 2, 2, 3, 4, 8, 9]);
        let mut input = draw(random, scale, ALL_CHOICES[i % 4]).within(limit);
        damage(random, &mut input);
        if input.choices & !(TURNING | FULL_DEMAND) == 0 && input.kinds.len() == input.operands.len() {
            for code in calls.iter().filter_map(|&call| check_agrees(call, &input)) {
                *met.entry(code).or_default() += 1;
            }
            saw_agrees(&input, random.from(0, 6) as u64);
        }
    }
    println!("checks in C met {met:?}");
    let expected = (0..=7).chain(10..=18).chain([22, 23, 26, 27, 33]);
    assert!(expected.eq(met.keys().copied()) && met[&0] >= 9000, "{met:?}");
}
