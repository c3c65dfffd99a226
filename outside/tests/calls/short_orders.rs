// The exact answer for short orders: one case for each sentence of the request; and on generated jobs
// the optimum against every tree within the demands, the bounds and the plan check.
use crate::capacity::{done, words};
use crate::deep::many_kinds;
use crate::exact::Amounts;
use crate::examples::{answers, input, leaves_plan, refuses, Node};
use crate::inputs::{draw, short_order, Scale, SMALL};
use crate::lent::{Lent, Sizes, AMPLE};
use crate::run::{compare, Call, Input, ALL_CHOICES};
use crate::stack::on_small_stack;
use crate::trees::{most, MOST_STAGES};
use crate::widened::{saw, widened};
use outside::answers::{Words, FULL_DEMAND, TURNING};
use outside::blocks::{job_block, job_s, kerf_block, Kind};
use outside::random::Random;
use outside::reference::{normal_positions, Job};
use outside::{baseline, slices};

const ROOM: Sizes = Sizes { table: 1 << 17, ..AMPLE };

fn order(job: Vec<u8>, nodes: &[Node]) -> Input {
    let n = usize::from(job[4]);
    input(job, &vec![0; n], nodes)
}

#[test]
fn the_optimum_and_the_plan_of_s() {
    let best = order(job_s(), &[(2, 2), (1, 0), (3, 1), (1, 1), (1, 2)]);
    answers(Call::Exact, &best, &[16, 12, 5, 4, 5]);
    leaves_plan(Call::Exact, &best, 16);
    let (code, lent) = compare(Call::Exact, &best, Sizes { table: 239, ..ROOM });
    assert_eq!((code, lent.answer.words()[0]), (20, 240));
}

/// Kind 0 runs fastest: units of two kinds, one of the first and two of the second.
#[test]
fn states_stand_with_kind_0_fastest() {
    let job = order(job_block(3, 1, &[(1, 1, 5, 1), (1, 1, 7, 2)]), &[]);
    let lent = done(Call::Exact, &job, ROOM);
    assert_eq!(lent.answer.words()[..5], [19, 6, 4, 2, 5]);
    let cells = [[0, 5, 7, 7, 7, 7], [0, 5, 7, 12, 14, 14], [0, 5, 7, 12, 14, 19]];
    for (length, cell) in (1..).zip(cells) {
        assert_eq!(lent.table.words()[12 * length..][..12], [[0; 6], cell].concat());
    }
    assert_eq!(lent.table.words()[..12], [0; 12]);
    assert_eq!(lent.table.words()[48..], Lent::new(ROOM).table.words()[48..]);
}

/// In the second part, 4 by 1, two copies of kind 1 remain and none of kind 0. A cut at 1 with a copy of
/// kind 0 on each side would earn as much.
#[test]
fn parts_of_a_state_have_no_kind_above_what_remains() {
    let job = job_block(5, 1, &[(1, 1, 2, 1), (2, 1, 4, 2)]);
    let nodes = [(2, 1), (1, 0), (2, 2), (1, 1), (1, 1)];
    leaves_plan(Call::Exact, &order(job, &nodes), 10);
}

/// The first part of 3 units may have any unit: it has the one with the lowest number.
#[test]
fn parts_are_tried_by_their_numbers() {
    let nodes = |kinds: [u16; 3]| [(2, 1), (1, kinds[0]), (2, 1), (1, kinds[1]), (1, kinds[2])];
    let units = |demands: [u16; 2]| job_block(3, 1, &demands.map(|demand| (1, 1, 5, demand)));
    leaves_plan(Call::Exact, &order(units([2, 1]), &nodes([0, 0, 1])), 15);
    leaves_plan(Call::Exact, &order(units([1, 2]), &nodes([0, 1, 1])), 15);
}

/// A cheaper piece lies where no copy of the dearer one remains; turned copies count with upright ones.
#[test]
fn copies_run_out() {
    let job = job_block(4, 2, &[(2, 2, 9, 1), (1, 2, 3, 1)]);
    leaves_plan(Call::Exact, &order(job, &[(2, 1), (0, 0), (2, 1), (1, 1), (1, 0)]), 12);
    let turned = job_block(3, 2, &[(2, 1, 5, 2)]);
    let nodes = [(2, 1), (0, 0), (2, 1), (4, 0), (4, 0)];
    let both = order(turned.clone(), &nodes).with(TURNING);
    leaves_plan(Call::Exact, &both, 10);
    answers(Call::Bound, &Input { weights: vec![1], ..both }, &[10, 2, 4, 3]);
    leaves_plan(Call::Exact, &order(turned, &[(3, 1), (1, 0), (1, 0)]), 10);
}

/// Waste where nothing is ordered, fits or has a price.
#[test]
fn nothing_to_earn() {
    for choices in ALL_CHOICES {
        let cancelled = order(job_block(4, 3, &[(2, 2, 5, 0), (1, 1, 5, 0)]), &[(0, 0)]).with(choices);
        answers(Call::Exact, &cancelled, &[0, 1, 1, 1, 1]);
        leaves_plan(Call::Exact, &cancelled, 0);
        let large = order(job_block(1, 1, &[(2, 2, 5, 3)]), &[(0, 0)]).with(choices);
        answers(Call::Exact, &large, &[0, 4, 1, 1, 1]);
        let free = order(job_block(2, 2, &[(1, 1, 0, 3)]), &[(0, 0)]).with(choices);
        answers(Call::Exact, &free, &[0, 4, 3, 3, 1]);
        leaves_plan(Call::Exact, &free, 0);
    }
}

/// With kerf 2 a second part of the length would be below 1: its cut is left out.
#[test]
fn a_cut_without_a_second_part_is_left_out() {
    let kinds = [(3, 3, 5, 2), (4, 1, 1, 1)];
    let job = |length| kerf_block(length, 8, 2, &kinds);
    leaves_plan(Call::Exact, &order(job(4), &[(3, 3), (1, 0), (1, 0)]), 10);
    let cut = [(2, 3), (3, 3), (1, 0), (1, 0), (0, 0)];
    leaves_plan(Call::Exact, &order(job(6), &cut), 10);
}

#[test]
fn refusals_in_order() {
    let none = Sizes { lengths: 9, widths: 10, table: 0, kinds: 0, operands: 0, ..ROOM };
    let expect = |kinds: &[Kind], sizes, number, place| {
        let (code, lent) = compare(Call::Exact, &order(job_block(9, 9, kinds), &[]), sizes);
        assert_eq!((code, lent.answer.words()[0]), (number, place));
    };
    let few = [(3, 3, 7, 2), (2, 2, 9, 1)];
    let many = [(3, 3, 7, 255), (2, 2, 9, 16)];
    expect(&[(3, 3, 7, 255), (2, 0, 9, 16)], none, 5, 1);
    expect(&[(3, 3, 7, 255), (2, 2, 1_000_001, 16)], none, 6, 1);
    expect(&[(3, 3, 7, 255), (2, 2, 9, 256)], none, 7, 1);
    expect(&many, none, 30, 0);
    expect(&many, ROOM, 30, 0);
    expect(&few, none, 19, 0);
    let lists = Sizes { lengths: 10, ..none };
    let words = 9 * 9 * 6;
    expect(&few, lists, 20, words);
    expect(&few, Sizes { table: words as usize - 1, ..lists }, 20, words);
    let table = Sizes { table: words as usize, ..lists };
    let (_, lent) = compare(Call::Exact, &order(job_block(9, 9, &few), &[]), ROOM);
    let [optimum, nodes] = [0, 4].map(|word| lent.answer.words()[word]);
    expect(&few, table, 21, nodes);
    let room = nodes as usize;
    expect(&few, Sizes { kinds: room, operands: room - 1, ..table }, 21, nodes);
    expect(&few, Sizes { kinds: room - 1, operands: room, ..table }, 21, nodes);
    expect(&few, Sizes { kinds: room, operands: room, ..table }, 0, optimum);
    refuses(Call::Exact, &order(kerf_block(9, 9, 21, &many), &[]), 27, 0);
    refuses(Call::Exact, &Input::default(), 1, 0);
}

/// What a refusal keeps: all before 20, the table at 20, the plan arrays at 21.
#[test]
fn refusals_keep_what_was_lent() {
    let job = order(job_s(), &[]);
    let whole = done(Call::Exact, &job, ROOM);
    for (sizes, number) in [
        (Sizes { table: 239, ..ROOM }, 20),
        (Sizes { kinds: 4, ..ROOM }, 21),
        (Sizes { operands: 4, ..ROOM }, 21),
    ] {
        let fresh = Lent::new(sizes);
        let (code, lent) = compare(Call::Exact, &job, sizes);
        assert_eq!(code, number);
        assert!(lent.lengths == whole.lengths && lent.widths == whole.widths);
        assert!(lent.table == *if number == 20 { &fresh.table } else { &whole.table });
        assert!(lent.kinds == fresh.kinds && lent.operands == fresh.operands);
    }
    let sizes = Sizes { lengths: 5, ..ROOM };
    let (_, lent) = compare(Call::Exact, &job, sizes);
    assert_eq!(lent.differences(&Lent::new(sizes)), ["answer"]);
}

/// Of kinds 1 by 1 with these demands, on a plate 1 by 1.
fn units(demands: &[u16]) -> Input {
    let kinds: Vec<Kind> = demands.iter().map(|&demand| (1, 1, 5, demand)).collect();
    order(job_block(1, 1, &kinds), &[])
}

/// Exactly 4,096 states pass, one more does not; products that would wrap are refused.
#[test]
fn products_up_to_4096() {
    let cancelled = [vec![1; 12], vec![0; 52]].concat();
    let just: [&[u16]; 6] = [&[1; 12], &[255, 15], &[63, 63], &[7; 4], &[0, 15, 0, 255], &cancelled];
    for choices in ALL_CHOICES {
        for demands in just {
            let answer = words(Call::Exact, &units(demands).with(choices), ROOM);
            assert_eq!(answer, [5, 4096, 2, 2, 1]);
        }
        let mut above: Vec<Vec<u16>> =
            vec![vec![16, 240], vec![255, 16], vec![1; 13], vec![255, 15, 1], vec![255, 0, 255]];
        above.extend([2, 4, 8, 16, 32, 64].map(|n| vec![255; n]));
        above.extend([16, 32, 64].map(|n| vec![1; n]));
        above.push([vec![1; 12], vec![0; 51], vec![1]].concat());
        for demands in above {
            refuses(Call::Exact, &units(&demands).with(choices), 30, 0);
        }
    }
}

#[test]
fn words_needed_are_counted_in_64_bits() {
    let kinds: Vec<Kind> = vec![(1, 1, 3, 255), (1, 1, 4, 15)];
    for choices in ALL_CHOICES {
        let input = order(job_block(1000, 1000, &kinds), &[]).with(choices);
        refuses(Call::Exact, &input, 20, 4_104_196_096);
    }
}

/// Columns of two pieces each, between units of waste: 2,047 cuts, and with one unit more too many.
#[test]
fn plans_of_4095_nodes_are_written() {
    let job = |width| order(job_block(8, width, &[(1, 260, 7, 16), (1, 1, 0, 1)]), &[]);
    let sizes = Sizes { kinds: 5000, operands: 5000, table: 1 << 18, ..AMPLE };
    assert_eq!(words(Call::Exact, &job(774), sizes), [112, 34, 9, 775, 4095]);
    let (code, lent) = compare(Call::Exact, &job(775), sizes);
    assert_eq!((code, lent.answer.words()[0]), (21, 4111));
}

#[test]
fn typed_answers() {
    let sizes = Sizes { lengths: 6, widths: 4, table: 240, kinds: 5, operands: 5, answer: 0 };
    let mut lent = Lent::new(sizes);
    let (storage, plan, _) = lent.split();
    let exact = slices::exact(&job_s(), 0, storage, plan).expect("the optimum");
    assert_eq!((exact.optimum, exact.states, exact.nodes), (16, 12, 5));
    assert_eq!((exact.lengths, exact.widths), (5, 4));
    let long = job_block(1, 1, &[(1, 1, 1, 255), (1, 1, 1, 16)]);
    let (storage, plan, _) = lent.split();
    let refused = slices::exact(&long, 0, storage, plan);
    assert_eq!(refused.map_err(|refusal| (refusal.number, refusal.place)), Err((30, 0)));
}

const TINY: Scale = Scale { plate: 5, kerf: 1, side: 3, kinds: 3, demand: 2, ..SMALL };

/// Generated short orders, the words of choices taking turns.
fn generated(seed: u64, count: usize, scale: Scale) -> impl Iterator<Item = (Input, Job)> {
    let mut random = Random::new(seed);
    (0..count).map(move |i| {
        let drawn = draw(&mut random, scale, ALL_CHOICES[i % 4]);
        let second = drawn.weights.iter().map(|_| random.from(0, scale.weight) as u8);
        let input = drawn.clone().and(&second.collect::<Vec<u8>>());
        let job = Job::read(&input.job, input.choices).expect("a job");
        (input, job)
    })
}

/// Some tree within the demands earns the optimum, none of those more.
#[test]
fn the_optimum_is_the_most_of_every_tree_within_the_demands() {
    for (input, job) in generated(91, 400, TINY) {
        let answer = words(Call::Exact, &input, ROOM);
        let copies = Amounts::of_copies(&job);
        let every = most(&job, &copies, &copies.copies_of_each(job.kinds.len()))[MOST_STAGES];
        assert_eq!((answer[0], answer[1]), (every, copies.states as u64), "{input:?}");
    }
}

/// The plan passes the check and earns the optimum. No weights give a lower bound, one a kind or two;
/// the certificate's gap is what remains.
#[test]
fn plans_pass_the_check_and_no_bound_is_lower() {
    let mut random = Random::new(92);
    let (mut best, mut gaps) = (0, 0);
    for (input, _) in generated(93, 2000, Scale { plate: 9, demand: 2, ..SMALL }) {
        let lent = done(Call::Exact, &input, ROOM);
        let optimum = lent.answer.words()[0];
        let plan = input.with_written_plan(&lent);
        assert_eq!(words(Call::CheckPlan, &plan, ROOM)[0], optimum, "{input:?}");
        for _ in 0..3 {
            let mut weights = || plan.weights.iter().map(|_| random.from(0, 3) as u8).collect::<Vec<u8>>();
            let weighed = Input { weights: weights(), second: weights(), ..plan.clone() };
            let bound = words(Call::Bound, &weighed, ROOM)[0];
            assert!(bound >= optimum, "{optimum} above {bound}: {weighed:?}");
            let certificate = words(Call::Certify, &weighed, ROOM);
            assert_eq!(certificate, [bound - optimum, bound, optimum]);
            best += usize::from(bound == optimum);
            gaps += usize::from(bound > optimum);
            let two = compare(Call::BoundTwo, &weighed, ROOM);
            assert!(two.0 == 20 || two.1.answer.words()[0] >= optimum, "{weighed:?}");
        }
    }
    println!("{best} certificates of exact plans without a gap, {gaps} with one");
    assert!(best >= 1000 && gaps >= 200);
}

/// The choice of the full demand changes nothing.
#[test]
fn no_capacity_is_read() {
    for (input, _) in generated(94, 500, SMALL) {
        let [one, other] = [input.choices, input.choices ^ FULL_DEMAND]
            .map(|choices| done(Call::Exact, &input.clone().with(choices), ROOM));
        assert_eq!(one.differences(&other), [""; 0], "{input:?}");
    }
}

/// Lists and table are those of the job with the kerf added to every side, and so is the plan but for
/// the cuts that are left out.
#[test]
fn a_kerf_is_added_to_every_side() {
    let mut shorter = 0;
    let wide = Scale { plate: 12, kerf: 4, side: 6, kinds: 3, demand: 2, ..SMALL };
    for (input, job) in generated(95, 2000, wide) {
        let [sawn, broad] = [&input, &widened(&input, &job)].map(|input| done(Call::Exact, input, ROOM));
        assert!(sawn.table == broad.table && sawn.lengths == broad.lengths, "{input:?}");
        assert!(sawn.widths == broad.widths, "{input:?}");
        let [sawn, broad] = [sawn, broad].map(|lent| {
            let plan = input.with_written_plan(&lent);
            plan.kinds.into_iter().zip(plan.operands).collect::<Vec<Node>>()
        });
        let side = [job.length, job.width].map(|side| (side + job.kerf) as u16);
        let nodes = broad.len();
        assert_eq!(sawn, saw(job.kerf as u16, side, &mut broad.into_iter()), "{input:?}");
        shorter += usize::from(sawn.len() < nodes);
    }
    println!("{shorter} of 2000 exact plans leave a cut out");
    assert!(shorter >= 20);
}

/// With one kind the states are the shares of a weight of 1 that counts the full demand: the same table
/// and plan.
#[test]
fn one_kind_is_a_weight_of_1() {
    let one = Scale { plate: 12, kinds: 1, demand: 9, ..SMALL };
    for (input, _) in generated(96, 500, one) {
        let weighed = Input { weights: vec![1], ..input.clone().with(input.choices | FULL_DEMAND) };
        let calls = [(Call::Exact, &input), (Call::WritePlan, &weighed)];
        let [exact, bound] = calls.map(|(call, input)| done(call, input, ROOM));
        let [optimum, states, p, r, nodes] = [0, 1, 2, 3, 4].map(|word| exact.answer.words()[word]);
        assert_eq!(bound.answer.words()[..5], [optimum, states - 1, p, r, nodes], "{input:?}");
        let differences = exact.differences(&bound);
        assert!(differences.iter().all(|name| *name == "answer"), "{differences:?} {input:?}");
    }
}

/// More states than in the other generated jobs, up to 4,096, and orders that are too long.
#[test]
fn longer_orders_agree() {
    let random = &mut Random::new(97);
    let many = Scale { plate: 4, kerf: 1, side: 3, kinds: 8, demand: 7, price: 40, ..SMALL };
    let (mut done, mut states) = (0, 0);
    for i in 0..400 {
        let input = draw(random, many, ALL_CHOICES[i % 4]);
        let input = short_order(random, &input, 40_000_000);
        let (code, lent) = compare(Call::Exact, &input, ROOM);
        assert!(matches!(code, 0 | 20 | 30), "{code} {input:?}");
        done += usize::from(code == 0);
        states = states.max(if code == 0 { lent.answer.words()[1] } else { 0 });
    }
    println!("{done} of 400 longer orders answered, with up to {states} states");
    assert!(done >= 200 && states == 4096);
}

/// 64 kinds of which twelve are ordered, the first, the last, or all along; two kinds of many copies;
/// and the deepest plan: on a small stack. What is expected comes from the baseline, for the reference is
/// too slow here.
#[test]
fn largest_orders_are_answered_on_a_small_stack() {
    let ordered: [fn(usize) -> bool; 3] = [|i| i < 12, |i| i >= 52, |i| i % 5 == 3 && i < 60];
    for ((side, kerf), is_ordered) in [(24, 0), (40, 2), (24, 1)].into_iter().zip(ordered) {
        let mut kinds = many_kinds(30);
        kinds.iter_mut().enumerate().for_each(|(i, kind)| kind.3 = u16::from(is_ordered(i)));
        let job = order(kerf_block(side, side, kerf, &kinds), &[]);
        is_answered(&job, 4096);
        is_answered(&job.with(TURNING), 4096);
    }
    is_answered(&order(job_block(30, 30, &[(3, 2, 7, 255), (4, 5, 30, 15)]), &[]), 4096);
    is_answered(&order(job_block(1000, 1000, &[(1, 1, 7, 2)]), &[]), 3);
}

/// The longest plan that is written, and one that is too long.
#[test]
fn longest_plans_fit_the_stack() {
    let sizes = Sizes { kinds: 5000, operands: 5000, table: 1 << 18, ..AMPLE };
    for (width, code, first) in [(774, 0, 112), (775, 21, 4111)] {
        let job = order(job_block(8, width, &[(1, 260, 7, 16), (1, 1, 0, 1)]), &[]);
        let (given, lent) = on_small_stack(Call::Exact, &job, sizes);
        assert_eq!((given, lent.answer.words()[0]), (code, first));
    }
}

fn is_answered(input: &Input, states: usize) {
    let (lengths, widths) = normal_positions(&Job::read(&input.job, input.choices).expect("a job"));
    let sizes = Sizes { table: lengths.len() * widths.len() * states, ..AMPLE };
    let mut expected = Lent::new(sizes);
    let (storage, plan, answer) = expected.split();
    // SAFETY: the job is accepted, and the table is as large as it must be.
    let exact = unsafe { baseline::c::exact(&input.job, input.choices, storage, plan) };
    answer[..5].copy_from_slice(&exact.to_words());
    assert_eq!(exact.states, states as u64);
    let (code, lent) = on_small_stack(Call::Exact, input, sizes);
    assert_eq!((code, expected.differences(&lent)), (0, vec![]));
    let (code, report) = on_small_stack(Call::CheckPlan, &input.with_written_plan(&lent), sizes);
    assert_eq!((code, report.answer.words()[0]), (0, exact.optimum));
}
