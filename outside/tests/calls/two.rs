// Two weights a kind: one case for each sentence of the request; and on generated jobs the bound against
// every tree within both capacities, and within the demands.
use crate::capacity::{done, words};
use crate::deep::many_kinds;
use crate::exact::{optimum, Amounts};
use crate::examples::{answers, input, refuses};
use crate::inputs::{draw, Scale, SMALL};
use crate::lent::{Lent, Sizes, AMPLE};
use crate::run::{compare, Call, Input, ALL_CHOICES};
use crate::stack::on_small_stack;
use crate::trees::{most, MOST_STAGES};
use outside::answers::{Words, FULL_DEMAND, TURNING};
use outside::blocks::{job_block, job_s, kerf_block, Kind};
use outside::random::Random;
use outside::reference::{normal_positions, Job};
use outside::{baseline, slices};

const ROOM: Sizes = Sizes { table: 1 << 17, ..AMPLE };

fn weighed(job: Vec<u8>, first: &[u8], second: &[u8]) -> Input {
    input(job, first, &[]).and(second)
}

/// A weight on kind 1 keeps it to two copies, in whichever capacity it counts.
#[test]
fn bounds_of_s() {
    let s = |first, second| weighed(job_s(), first, second);
    answers(Call::BoundTwo, &s(&[0, 0, 0], &[0, 0, 0]), &[19, 0, 0, 5, 4]);
    answers(Call::BoundTwo, &s(&[0, 1, 0], &[0, 0, 0]), &[16, 2, 0, 5, 4]);
    answers(Call::BoundTwo, &s(&[0, 0, 0], &[0, 1, 0]), &[16, 0, 2, 5, 4]);
    answers(Call::BoundTwo, &s(&[0, 1, 0], &[1, 0, 0]), &[16, 2, 1, 5, 4]);
}

/// A word for each pair of shares, the second fastest: units of two kinds, one of which weighs in the
/// first capacity and the other in the second.
#[test]
fn pairs_of_shares_stand_with_the_second_fastest() {
    let job = job_block(3, 1, &[(1, 1, 5, 1), (1, 1, 7, 2)]);
    let lent = done(Call::BoundTwo, &weighed(job, &[1, 0], &[0, 1]), ROOM);
    assert_eq!(lent.answer.words()[..5], [19, 1, 2, 4, 2]);
    let cells = [[0, 7, 7, 5, 7, 7], [0, 7, 14, 5, 12, 14], [0, 7, 14, 5, 12, 19]];
    for (length, cell) in (1..).zip(cells) {
        assert_eq!(lent.table.words()[12 * length..][..12], [[0; 6], cell].concat());
    }
    assert_eq!(lent.table.words()[..12], [0; 12]);
    assert_eq!(lent.table.words()[48..], Lent::new(ROOM).table.words()[48..]);
}

#[test]
fn both_capacities_are_answered_in_both_forms() {
    let kinds = [(4, 3, 1, 200), (5, 5, 1, 1)];
    let job = |choices| weighed(job_block(10, 5, &kinds), &[1, 3], &[0, 2]).with(choices);
    let forms = [(0, [5, 2]), (TURNING, [7, 2]), (FULL_DEMAND, [203, 2])];
    for (choices, capacities) in forms {
        assert_eq!(words(Call::BoundTwo, &job(choices), ROOM)[1..3], capacities);
    }
}

/// Both weights of the wrong number, and both too heavy: the first one's refusal comes first.
#[test]
fn refusals_in_order() {
    let job = job_block(9, 9, &[(1, 1, 7, 81), (2, 2, 9, 2)]);
    let none = Sizes { lengths: 9, widths: 10, table: 0, ..ROOM };
    let expect = |first: &[u8], second: &[u8], sizes, number, place| {
        let (code, lent) = compare(Call::BoundTwo, &weighed(job.clone(), first, second), sizes);
        assert_eq!((code, lent.answer.words()[0]), (number, place));
    };
    expect(&[255], &[255], none, 8, 0);
    expect(&[255, 0, 0], &[0], none, 8, 0);
    expect(&[255, 0], &[255], none, 24, 0);
    expect(&[255, 0], &[0, 0, 0], none, 24, 0);
    expect(&[51, 0], &[51, 0], none, 9, 0);
    expect(&[51, 0], &[0, 0], none, 9, 0);
    expect(&[0, 0], &[51, 0], none, 9, 0);
    expect(&[50, 0], &[50, 0], none, 25, 0);
    expect(&[1, 0], &[0, 1], none, 19, 0);
    let lists = Sizes { lengths: 10, ..none };
    expect(&[1, 0], &[0, 1], lists, 20, 100 * 82 * 3);
    expect(&[1, 0], &[0, 1], Sizes { table: 100 * 82 * 3, ..lists }, 0, 7 * 81);
    refuses(Call::BoundTwo, &weighed(vec![], &[], &[0]), 1, 0);
    let seven = job_block(9, 9, &[(1, 1, 7, 256)]);
    refuses(Call::BoundTwo, &weighed(seven, &[], &[]), 7, 0);
    let kerf = kerf_block(9, 9, 21, &[(1, 1, 7, 25)]);
    refuses(Call::BoundTwo, &weighed(kerf, &[], &[]), 27, 0);
}

/// A product of exactly 65,536 passes, one row more does not.
#[test]
fn products_up_to_65536() {
    let kinds: Vec<Kind> = vec![(1, 1, 3, 1), (1, 1, 4, 1), (1, 1, 5, 1)];
    let two = |first: [u8; 3], second: [u8; 3]| weighed(job_block(1, 1, &kinds), &first, &second);
    for choices in ALL_CHOICES {
        let just = two([255, 0, 0], [100, 100, 55]).with(choices);
        assert_eq!(words(Call::BoundTwo, &just, Sizes { table: 1 << 18, ..ROOM })[..3], [5, 255, 255]);
        refuses(Call::BoundTwo, &two([255, 0, 0], [100, 100, 56]).with(choices), 25, 0);
        refuses(Call::BoundTwo, &two([255, 1, 0], [100, 100, 55]).with(choices), 25, 0);
    }
    let kinds: Vec<Kind> = vec![(1, 1, 3, 16), (1, 1, 4, 15)];
    let long = |second| weighed(job_block(4, 4, &kinds), &[255, 1], second).with(FULL_DEMAND);
    let (code, lent) = compare(Call::BoundTwo, &long(&[0, 1]), Sizes { table: 0, ..ROOM });
    assert_eq!((code, lent.answer.words()[0]), (20, 25 * 65_536));
    refuses(Call::BoundTwo, &long(&[1, 0]), 25, 0);
}

#[test]
fn words_needed_are_counted_in_64_bits() {
    let kinds: Vec<Kind> = vec![(1, 1, 3, 255), (1, 1, 4, 15)];
    let job = job_block(1000, 1000, &kinds);
    for choices in ALL_CHOICES {
        let input = weighed(job.clone(), &[16, 1], &[0, 1]).with(choices);
        refuses(Call::BoundTwo, &input, 20, 65_667_137_536);
    }
}

#[test]
fn typed_answers() {
    let mut lent = Lent::new(Sizes { lengths: 6, widths: 4, table: 120, ..AMPLE });
    let both = slices::bound_two(&job_s(), 0, &[0, 1, 0], &[1, 0, 0], lent.split().0);
    assert_eq!(both.expect("a bound").to_words(), [16, 2, 1, 5, 4]);
    let refused = slices::bound_two(&job_s(), 0, &[0, 1, 0], &[1, 0], lent.split().0);
    assert_eq!(refused.map_err(|refusal| refusal.number), Err(24));
}

const TINY: Scale = Scale { plate: 5, kerf: 1, side: 3, kinds: 3, demand: 2, ..SMALL };

/// Generated inputs with second weights, the words of choices taking turns.
fn generated(seed: u64, count: usize, scale: Scale) -> impl Iterator<Item = (Input, Job)> {
    let mut random = Random::new(seed);
    (0..count).map(move |i| {
        let input = draw(&mut random, scale, ALL_CHOICES[i % 4]);
        let second: Vec<u8> = input.weights.iter().map(|_| random.from(0, scale.weight) as u8).collect();
        let job = Job::read(&input.job, input.choices).expect("a job");
        (input.and(&second), job)
    })
}

/// Some tree within both capacities earns the bound, none of those more.
#[test]
fn the_bound_is_the_most_of_every_tree_within_both_capacities() {
    let mut lower = 0;
    for (input, job) in generated(81, 300, TINY) {
        let answer = words(Call::BoundTwo, &input, ROOM);
        let amounts = Amounts::up_to(answer[1..3].iter().map(|&capacity| capacity as usize));
        let pairs = input.weights.iter().zip(&input.second);
        let numbers: Vec<Option<usize>> =
            pairs.map(|(&a, &b)| amounts.number(&[a.into(), b.into()])).collect();
        assert_eq!(answer[0], most(&job, &amounts, &numbers)[MOST_STAGES], "{input:?}");
        let one = words(Call::Bound, &input, ROOM)[0];
        lower += usize::from(answer[0] < one);
    }
    println!("{lower} of 300 bounds are lower than with the first weights alone");
    assert!(lower >= 10);
}

#[test]
fn no_tree_within_the_demands_earns_more() {
    for (input, job) in generated(82, 400, TINY) {
        let bound = words(Call::BoundTwo, &input, ROOM)[0];
        let most = optimum(&job);
        assert!(most <= bound, "{most} is earned, bound {bound}: {input:?}");
    }
}

/// With all second weights 0 the second capacity is 0 and the rest the answer of one weight, with its
/// lists and table; with all first weights 0 the same words.
#[test]
fn no_second_weights_leave_the_bound_of_one_weight() {
    for (input, _) in generated(83, 1000, Scale { plate: 12, ..SMALL }) {
        let one = done(Call::Bound, &input, ROOM);
        let zeros = vec![0; input.weights.len()];
        let second = Input { weights: zeros.clone(), second: input.weights.clone(), ..input.clone() };
        for (two, is_second) in [(input.clone().and(&zeros), false), (second, true)] {
            let lent = done(Call::BoundTwo, &two, ROOM);
            let [bound, q, p, r] = [0, 1, 2, 3].map(|word| one.answer.words()[word]);
            let both = if is_second { [0, q] } else { [q, 0] };
            assert_eq!(lent.answer.words()[..5], [bound, both[0], both[1], p, r]);
            assert!(lent.table == one.table && lent.lengths == one.lengths && lent.widths == one.widths);
        }
    }
}

/// No higher than with either weights alone; the same with both exchanged.
#[test]
fn two_weights_bound_no_higher_than_one() {
    let mut lower = 0;
    for (input, _) in generated(84, 1000, Scale { plate: 9, ..SMALL }) {
        let exchanged =
            Input { weights: input.second.clone(), second: input.weights.clone(), ..input.clone() };
        let [two, other] = [&input, &exchanged].map(|input| words(Call::BoundTwo, input, ROOM));
        let ones = [&input, &exchanged].map(|input| words(Call::Bound, input, ROOM)[0]);
        assert!(two[0] <= ones[0].min(ones[1]), "{input:?}");
        assert_eq!((two[0], two[1], two[2]), (other[0], other[2], other[1]), "{input:?}");
        lower += usize::from(two[0] < ones[0].min(ones[1]));
    }
    println!("{lower} of 1000 bounds are lower than with either weights alone");
    assert!(lower >= 5);
}

/// Four units: one of each kind, or two of the dearer one where both weigh alike.
#[test]
fn a_cut_shares_out_both_capacities() {
    let two =
        |first: &[u8], second: &[u8]| weighed(job_block(2, 2, &[(1, 1, 10, 1), (1, 1, 9, 1)]), first, second);
    answers(Call::BoundTwo, &two(&[1, 0], &[0, 1]), &[19, 1, 1, 3, 3]);
    answers(Call::BoundTwo, &two(&[1, 1], &[0, 1]), &[20, 2, 1, 3, 3]);
    answers(Call::BoundTwo, &two(&[1, 1], &[1, 1]), &[20, 2, 2, 3, 3]);
}

/// 64 kinds on a large plate with one pair of shares, and as many pairs as there may be on a small one,
/// on a small stack. What is expected comes from the baseline, for the reference is too slow here.
#[test]
fn largest_tables_are_filled() {
    let free = kerf_block(500, 500, 0, &many_kinds(60));
    is_filled(&weighed(free, &[0; 64], &[0; 64]), [0, 0]);
    let mut weights = [4; 64];
    weights[0] = 3;
    for kerf in [0, 2] {
        let small = kerf_block(12, 9, kerf, &many_kinds(9));
        is_filled(&weighed(small.clone(), &weights, &weights), [255, 255]);
        let mut second = [0; 64];
        second[..15].fill(1);
        let mut first = [64; 64];
        first[0] = 63;
        is_filled(&weighed(small, &first, &second).with(TURNING), [4095, 15]);
    }
}

fn is_filled(input: &Input, capacities: [usize; 2]) {
    let (lengths, widths) = normal_positions(&Job::read(&input.job, input.choices).expect("a job"));
    let (p, r) = (lengths.len(), widths.len());
    let pairs: usize = capacities.iter().map(|capacity| capacity + 1).product();
    let sizes = Sizes { table: p * r * pairs, ..AMPLE };
    let mut filled = Lent::new(sizes);
    let Input { job, choices, weights, second, .. } = input;
    // SAFETY: the job is accepted, and the table is as large as it must be.
    let bound =
        unsafe { baseline::c::bound_two(job, *choices, weights, second, filled.split().0).to_words() };
    let [first, other] = capacities;
    assert_eq!(bound[1..], [first, other, p, r].map(|number| number as u64));
    let (code, lent) = on_small_stack(Call::BoundTwo, input, sizes);
    assert_eq!((code, &lent.answer.words()[..5]), (0, &bound[..]));
    assert!(lent.table == filled.table && lent.lengths == filled.lengths);
    assert!(lent.widths == filled.widths);
}
