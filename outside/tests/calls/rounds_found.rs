// Weights found on generated jobs: the answered bound against every tree within the demands and against
// the bound of the answered weights; longer runs; and the largest runs on a small stack.
use crate::cancelled::draw_both;
use crate::capacity::{done, words};
use crate::deep::{agrees, deep_plans, longest_plan_of_waste, many_kinds};
use crate::exact::optimum;
use crate::examples::Node;
use crate::inputs::{draw, Scale, SMALL};
use crate::lent::{Lent, Sizes, AMPLE};
use crate::rounds::{lending, ROOM, WASTE};
use crate::run::{compare, Call, Input, ALL_CHOICES};
use crate::stack::on_small_stack;
use outside::answers::{Words, FOUND_WORDS, FULL_DEMAND, TURNING};
use outside::baseline;
use outside::blocks::{job_block, kerf_block, Kind};
use outside::random::Random;
use outside::reference::{normal_positions, Job};

const TINY: Scale = Scale { plate: 5, side: 3, kinds: 3, demand: 2, ..SMALL };

/// Generated jobs whose lent plan passes its check, the words of choices taking turns.
fn generated(seed: u64, count: usize, scale: Scale) -> impl Iterator<Item = Input> {
    let mut random = Random::new(seed);
    let drawn = (0..).map(move |i| draw(&mut random, scale, ALL_CHOICES[i % 4]));
    drawn.filter(|input| compare(Call::CheckPlan, input, AMPLE).0 == 0).take(count)
}

/// Of every tree, written down or not. The bound is that of the answered weights. Where the last plan
/// keeps the demands, it earns the bound.
#[test]
fn no_tree_within_the_demands_earns_more() {
    let (mut earned, mut kept, mut lowered) = (0, 0, 0);
    for input in generated(101, 2000, TINY) {
        let job = Job::read(&input.job, input.choices).expect("a job");
        let most = optimum(&job);
        let found = words(Call::FindWeights, &input, ROOM);
        let (bound, rounds) = (found[0], found[1]);
        assert!(most <= bound && (1..=18).contains(&rounds), "{most} is earned: {input:?}");
        assert!(rounds == 18 || most == bound, "{input:?}");
        let (weights, past) = found[2..].split_at(job.kinds.len());
        assert!(past.iter().all(|&weight| weight == 0));
        assert_eq!(bound_of(&input, weights), bound, "{input:?}");
        earned += usize::from(most == bound);
        kept += usize::from(rounds < 18);
        lowered += usize::from(bound < bound_of(&input, &vec![0; weights.len()]));
    }
    println!("{earned} of 2000 bounds are earned, {kept} runs stop early, {lowered} lower the bound");
    assert!(earned >= 1000 && lowered >= 200 && (1000..1990).contains(&kept));
}

fn bound_of(input: &Input, weights: &[u64]) -> u64 {
    let weights = weights.iter().map(|&weight| weight as u8).collect();
    words(Call::Bound, &Input { weights, ..input.clone() }, ROOM)[0]
}

/// A kind that has a weight was cut more often than it is ordered: the plate holds what is ordered.
#[test]
fn both_forms_of_the_capacity_find_the_same() {
    let many = Scale { plate: 9, kinds: 5, price: 90, demand: 9, ..SMALL };
    for input in generated(102, 400, many) {
        let [held, full] = [input.choices, input.choices ^ FULL_DEMAND]
            .map(|choices| compare(Call::FindWeights, &input.clone().with(choices), AMPLE));
        assert_eq!((held.0, held.1.differences(&full.1)), (full.0, vec![]), "{input:?}");
    }
}

/// Cancelled kinds get no weight, and all else is found as without them.
#[test]
fn to_cancel_a_kind_is_to_leave_it_out() {
    let random = &mut Random::new(103);
    for _ in 0..1000 {
        let (inputs, numbers) = draw_both(random);
        let [all, ordered] = inputs.map(|input| {
            let lending = Input { kinds: vec![0], operands: vec![0], ..input };
            done(Call::FindWeights, &lending, ROOM)
        });
        assert!(all.table == ordered.table && all.lengths == ordered.lengths);
        let [all, ordered] = [all, ordered].map(|lent| lent.answer.words().to_vec());
        assert_eq!(all[..2], ordered[..2]);
        let mut weights = [0; 64];
        numbers.iter().zip(&ordered[2..]).for_each(|(&kind, &w)| weights[usize::from(kind)] = w);
        assert_eq!(all[2..FOUND_WORDS], weights);
    }
}

/// Smaller and dearer pieces than in the other generated inputs; the shorter table ends some runs.
#[test]
fn longer_runs_agree() {
    let (mut runs, mut short, mut heaviest) = ([0; 19], 0, 0);
    let few = Scale { plate: 6, kerf: 1, side: 2, demand: 2, ..SMALL };
    for (scale, count, table) in [
        (Scale { price: 9, ..few }, 600, 500),
        (Scale { kinds: 7, price: 300, ..few }, 400, 2000),
        (Scale { plate: 12, side: 5, kinds: 8, price: 60, ..few }, 200, 4000),
        (Scale { plate: 4, kinds: 3, price: 1_000_000, ..few }, 200, 12_000),
    ] {
        for input in generated(104, count, scale) {
            let [found, longer] = [table, 2 * table].map(|table| {
                let lent = done(Call::FindWeights, &input, Sizes { table, ..AMPLE });
                lent.answer.words()[..FOUND_WORDS].to_vec()
            });
            assert!(found[0] >= longer[0] && found[1] <= longer[1], "{input:?}");
            runs[longer[1] as usize] += 1;
            short += usize::from(found[1] < longer[1]);
            heaviest = longer[2..].iter().copied().fold(heaviest, u64::max);
        }
    }
    println!("runs of 1 to 18 rounds: {:?}", &runs[1..]);
    println!("{short} ended by the table, weights up to {heaviest}");
    assert!(runs[1..].iter().filter(|&&times| times > 0).count() >= 12);
    assert!(runs[18] >= 50 && short >= 20 && heaviest == 255);
}

/// Deep and long plans are lent, without a table and with one; 64 kinds on the largest plate, and as
/// many shares as there may be on a small one. What is expected of these comes from the baseline, for
/// the reference is too slow there.
#[test]
fn the_largest_runs_fit_the_stack() {
    let unit = |nodes: &[Node]| lending(job_block(1000, 1000, &[(1, 1, 7, 2)]), nodes);
    for nodes in deep_plans(0).into_iter().chain([longest_plan_of_waste()]) {
        let (code, lent) = agrees(Call::FindWeights, &unit(&nodes), Sizes { table: 0, ..AMPLE });
        assert_eq!((code, lent.answer.words()[0]), (20, 1001 * 1001));
    }
    let sizes = Sizes { table: 1001 * 1001, ..AMPLE };
    let (code, lent) = on_small_stack(Call::FindWeights, &unit(&longest_plan_of_waste()), sizes);
    assert_eq!((code, lent.answer.words()[0]), (21, 1_999_999));
    for choices in [0, TURNING] {
        is_found(&lending(job_block(1000, 1000, &many_kinds(60)), &WASTE).with(choices), 3);
        for kerf in [0, 2] {
            is_found(&lending(kerf_block(12, 9, kerf, &small_first()), &WASTE).with(choices), 4096);
        }
    }
}

/// 64 kinds, the smaller ones dearer by the unit, so that far more are cut than ordered.
fn small_first() -> Vec<Kind> {
    let price = |length: u16, width: u16| 9000 * u32::from(length * width) / u32::from(length + width);
    many_kinds(9).into_iter().map(|(l, w, _, demand)| (l, w, price(l, w), demand)).collect()
}

/// With a table for so many shares.
fn is_found(input: &Input, shares: usize) {
    let (lengths, widths) = normal_positions(&Job::read(&input.job, input.choices).expect("a job"));
    let sizes = Sizes { table: lengths.len() * widths.len() * shares, ..AMPLE };
    let mut expected = Lent::new(sizes);
    let (storage, plan, answer) = expected.split();
    // SAFETY: the job is accepted, and the table is as large as round 0 needs.
    let found = unsafe { baseline::c::find_weights(&input.job, input.choices, 0, storage, plan) };
    answer[..FOUND_WORDS].copy_from_slice(&found.to_words());
    let (code, lent) = on_small_stack(Call::FindWeights, input, sizes);
    assert_eq!((code, expected.differences(&lent)), (0, vec![]));
    println!("{} rounds of 64 kinds", found.rounds);
}
