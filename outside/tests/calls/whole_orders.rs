// Whole orders and multipliers: examples, refusals in their order, and on generated jobs that no fewer
// plates hold the order, tried by every packing, and that no tree earns more than the Lagrangian bound.
use crate::capacity::words;
use crate::exact::{optima, optimum, Amounts};
use crate::examples::{answers, input, refuses};
use crate::inputs::{draw, Scale, SMALL};
use crate::lent::{Sizes, AMPLE};
use crate::run::{compare, Call, Input, ALL_CHOICES};
use outside::answers::GRAIN;
use outside::blocks::{job_block, job_s};
use outside::random::Random;
use outside::reference::{true_job, Job};

const TINY: Scale = Scale { plate: 5, kerf: 1, side: 3, kinds: 3, demand: 3, weight: 1, ..SMALL };
const ROOM: Sizes = Sizes { lengths: 30, widths: 30, table: 1 << 12, ..AMPLE };

fn generated(seed: u64, count: usize, grain: u32) -> impl Iterator<Item = (Input, Job)> {
    let mut random = Random::new(seed);
    (0..count).map(move |i| {
        let input = draw(&mut random, TINY, ALL_CHOICES[i % 4] | grain);
        let job = Job::read(&input.job, input.choices).expect("a job");
        (input, job)
    })
}

/// Worth 20 in all; a plate earns 16 under these weights.
#[test]
fn plates_of_s() {
    let s = |other| input(job_s(), &[0, 1, 0], &[]).beside(other);
    answers(Call::PlatesNeeded, &s(0), &[2, 16, 20]);
    answers(Call::PlatesNeeded, &s(3), &[2, 16, 20]);
    answers(Call::PlatesNeeded, &s(4), &[1, 16, 20]);
    answers(Call::PlatesNeeded, &s(19), &[1, 16, 20]);
    answers(Call::PlatesNeeded, &s(20), &[0, 16, 20]);
    answers(Call::PlatesNeeded, &s(u64::MAX), &[0, 16, 20]);
}

/// A copy that no plate holds, one that earns nothing, the most that an order is worth, and an order whose
/// worth is a multiple of the bound.
#[test]
fn plates_at_the_edges() {
    let order = |kind| input(job_block(2, 2, &[kind]), &[0], &[]);
    answers(Call::PlatesNeeded, &order((3, 1, 5, 1)), &[u64::MAX, 0, 5]);
    answers(Call::PlatesNeeded, &order((3, 1, 5, 1)).beside(4), &[u64::MAX, 0, 5]);
    answers(Call::PlatesNeeded, &order((3, 1, 5, 1)).beside(5), &[0, 0, 5]);
    answers(Call::PlatesNeeded, &order((1, 1, 0, 255)), &[0, 0, 0]);
    answers(Call::PlatesNeeded, &order((1, 1, 5, 0)), &[0, 0, 0]);
    answers(Call::PlatesNeeded, &order((1, 1, 5, 12)), &[3, 20, 60]);
    answers(Call::PlatesNeeded, &order((1, 1, 5, 13)), &[4, 20, 65]);
    let most = input(job_block(1, 1, &[(1, 1, 1_000_000, 255); 64]), &[0; 64], &[]);
    answers(Call::PlatesNeeded, &most, &[64 * 255, 1_000_000, 16_320_000_000]);
}

#[test]
fn multipliers_of_s() {
    let s = |multipliers: &[u32]| input(job_s(), &[0; 3], &[]).lowered(multipliers);
    answers(Call::BoundLagrangian, &s(&[0, 0, 0]), &[19, 19, 0, 5, 4]);
    answers(Call::BoundLagrangian, &s(&[7, 4, 5]), &[20, 0, 0, 5, 4]);
    answers(Call::BoundLagrangian, &s(&[1_000_000; 3]), &[4_000_000, 0, 0, 5, 4]);
    let (code, lent) = compare(Call::BoundLagrangian, &s(&[0, 4, 0]), ROOM);
    assert_eq!((code, lent.answer.words()[0]), (0, 8 + lent.answer.words()[1]));
}

/// The job, the weights, the multipliers, the storage.
#[test]
fn multipliers_are_refused_after_the_weights_and_before_the_storage() {
    let s = |weights: &[u8], multipliers: &[u32]| input(job_s(), weights, &[]).lowered(multipliers);
    refuses(Call::BoundLagrangian, &s(&[0; 2], &[0; 2]), 8, 0);
    let heavy = input(job_block(9, 9, &[(1, 1, 1, 17)]), &[255], &[]);
    refuses(Call::BoundLagrangian, &heavy.lowered(&[]), 9, 0);
    let refused = |multipliers: &[u32], number, place| {
        for (lengths, table) in [(0, 0), (6, 0), (6, 100)] {
            let sizes = Sizes { lengths, widths: 4, table, ..AMPLE };
            let (code, lent) = compare(Call::BoundLagrangian, &s(&[0; 3], multipliers), sizes);
            assert_eq!((code, lent.answer.words()[0]), (number, place));
        }
    };
    refused(&[0; 2], 37, 0);
    refused(&[0; 4], 37, 0);
    refused(&[1_000_001; 4], 37, 0);
    refused(&[1_000_000, 1_000_001, u32::MAX], 38, 1);
    let short = |lengths, table| {
        let sizes = Sizes { lengths, table, ..AMPLE };
        compare(Call::BoundLagrangian, &s(&[0; 3], &[1; 3]), sizes).0
    };
    assert_eq!([short(5, 100), short(6, 19), short(6, 20)], [19, 20, 0]);
}

/// Every answer and every lent word.
#[test]
fn multipliers_of_0_give_the_bound() {
    for (input, job) in generated(161, 1000, 0) {
        let input = input.lowered(&vec![0; job.kinds.len()]);
        let (code, plain) = compare(Call::Bound, &input, ROOM);
        let (given, lent) = compare(Call::BoundLagrangian, &input, ROOM);
        assert_eq!(given, code);
        assert!(plain.lengths == lent.lengths && plain.widths == lent.widths);
        assert!(plain.table == lent.table);
        let (plain, words) = (plain.answer.words(), lent.answer.words());
        assert_eq!((words[0], &words[1..5]), (plain[0], &plain[..4]), "{input:?}");
    }
}

fn no_tree_earns_more(seed: u64, grain: u32) {
    let (mut earned, mut lower) = (0, 0);
    for (input, job) in generated(seed, 2000, grain) {
        let (most, bound) = (optimum(&job), words(Call::BoundLagrangian, &input, ROOM)[0]);
        assert!(most <= bound, "{most} is earned, above {bound}: {input:?}");
        earned += usize::from(most == bound);
        lower += usize::from(bound < words(Call::Bound, &input, ROOM)[0]);
    }
    println!("{earned} of 2000 Lagrangian bounds are earned, {lower} are below the bound");
    assert!(earned >= 200 && lower >= 20);
}

#[test]
fn no_tree_within_the_demands_earns_more_than_the_lagrangian_bound() {
    no_tree_earns_more(162, 0);
}

#[test]
fn no_tree_with_grain_earns_more_than_the_lagrangian_bound() {
    no_tree_earns_more(163, GRAIN);
}

/// Which amounts of copies one plate holds: where every copy earns one, those that earn their number.
fn held(job: &Job, amounts: &Amounts) -> Vec<bool> {
    let mut counted = job.clone();
    counted.kinds.iter_mut().for_each(|kind| kind.price = 1);
    let copies = |state| amounts.digits(state).iter().sum::<usize>() as u64;
    let most = optima(&counted);
    (0..amounts.states).map(|state| most[state] == copies(state)).collect()
}

/// For each amount of copies the fewest plates that hold all of them, by every packing; none where no number
/// does.
fn fewest_plates(job: &Job, amounts: &Amounts) -> Vec<Option<u64>> {
    let held = held(job, amounts);
    let mut fewest = vec![None; amounts.states];
    fewest[0] = Some(0);
    for (one, rest) in splits_by_sum(amounts).into_iter().filter(|split| split.0 > 0) {
        if let (true, Some(plates)) = (held[one], fewest[rest]) {
            let whole: &mut Option<u64> = &mut fewest[one + rest];
            *whole = Some(whole.map_or(plates + 1, |fewest: u64| fewest.min(plates + 1)));
        }
    }
    fewest
}

/// The ways to part every amount, lesser amounts before greater ones.
fn splits_by_sum(amounts: &Amounts) -> Vec<(usize, usize)> {
    let mut splits = amounts.splits();
    splits.sort_by_key(|(a, b)| a + b);
    splits
}

/// How a plate count compares with every packing of the whole order on such plates.
#[derive(Default)]
struct Packed {
    orders: usize,
    met: usize,
}

impl Packed {
    /// Expects the answer to be no more than the truth, where some number of plates holds the order.
    fn compare(&mut self, input: &Input, truth: Option<u64>) {
        let needed = words(Call::PlatesNeeded, input, ROOM)[0];
        if let Some(truth) = truth {
            assert!(needed <= truth, "{truth} plates hold the order, not {needed}: {input:?}");
            self.orders += 1;
            self.met += usize::from(needed == truth && truth > 1);
        }
    }
}

/// Alone, beside one other plate that earns as much as it can, and at true sizes that the model stands for.
fn no_fewer_plates_hold_the_order(seed: u64, grain: u32) {
    let [mut alone, mut beside, mut true_sizes] = [(); 3].map(|()| Packed::default());
    for (input, job) in generated(seed, 1200, grain) {
        let amounts = Amounts::of_copies(&job);
        let fewest = fewest_plates(&job, &amounts);
        alone.compare(&input.clone().beside(0), fewest[amounts.states - 1]);
        let other = Job { length: 2, width: job.width.min(3), ..job.clone() };
        let on_other = held(&other, &amounts);
        let rest = (0..amounts.states).filter(|&one| on_other[one]);
        let truth = rest.filter_map(|one| fewest[amounts.states - 1 - one]).min();
        beside.compare(&input.clone().beside(optimum(&other)), truth);
        let at = true_job(&job, &input.sizes).expect("true sizes");
        let small = at.length.max(at.width) <= 12;
        if small && compare(Call::CheckModel, &input, ROOM).0 == 0 {
            let truth = fewest_plates(&at, &amounts)[amounts.states - 1];
            true_sizes.compare(&input.clone().beside(0), truth);
        }
    }
    let seen = [("alone", alone, 500), ("beside one", beside, 500), ("true", true_sizes, 100)];
    for (what, packed, least) in seen {
        println!("{what}: {} orders are held, {} by as many plates as needed", packed.orders, packed.met);
        assert!(packed.orders >= least && packed.met >= least / 10, "{what}");
    }
}

#[test]
fn no_fewer_plates_hold_a_whole_order() {
    no_fewer_plates_hold_the_order(164, 0);
}

#[test]
fn no_fewer_plates_hold_a_whole_order_with_grain() {
    no_fewer_plates_hold_the_order(165, GRAIN);
}
