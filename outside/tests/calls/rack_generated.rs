// Generated racks, valid and damaged, word by word against the reference; each plan of a rack against
// the check of one plan; every set of plans that shares the demands against the sum of the plates'
// bounds; and the deepest racks on a small stack.
use crate::capacity::words;
use crate::damage::damage;
use crate::deep::{deep_plans, longest_plan_of_waste};
use crate::exact::{optima, raise, Amounts};
use crate::examples::{input, Node};
use crate::inputs::{draw, draw_plan, Rectangle, Scale, SMALL};
use crate::lent::AMPLE;
use crate::rack::{order, Order};
use crate::run::{compare, Call, Input, ALL_CHOICES};
use crate::stack::fits_small_stack;
use outside::answers::{FULL_DEMAND, OLD_BLOCK, TURNING};
use outside::baseline::checks;
use outside::blocks::{kerf_block, Kind};
use outside::random::Random;
use outside::reference::{self, Job};
use outside::slices::calls;
use std::collections::BTreeMap;

/// A job and a plan for each of its plates. In every other rack the plans share the demands, in the rest
/// each may use them all.
fn draw_rack(random: &mut Random, scale: Scale, choices: u32, plates: usize) -> Order {
    let drawn = draw(random, scale, choices);
    let job = Job::read(&drawn.job, choices).expect("a job");
    let kind = |kind: &reference::Kind| {
        (kind.length as u16, kind.width as u16, kind.price as u32, kind.demand as u16)
    };
    let kinds: Vec<Kind> = job.kinds.iter().map(kind).collect();
    let demands: Vec<u16> = kinds.iter().map(|kind| kind.3).collect();
    let (shared, mut left) = (random.one_in(2), demands.clone());
    let (mut sides, mut nodes) = (Vec::new(), Vec::new());
    for _ in 0..plates {
        let (length, width) = (random.from(1, scale.plate), random.from(1, scale.plate));
        let plate = Rectangle { length, width, kerf: job.kerf };
        nodes.extend(draw_plan(random, plate, &kinds, (choices, &[]), &mut left));
        sides.push((length as u16, width as u16));
        if !shared {
            left.clone_from(&demands);
        }
    }
    let rack = order(drawn.job, &sides, &[&nodes]);
    Order { input: Input { weights: drawn.weights, ..rack.input.with(choices) }, ..rack }
}

/// Now and then plates of sides that are refused, too few or too many, or slices of several lengths.
fn damage_rack(random: &mut Random, order: &mut Order) {
    let edge = random.pick(&[0, 1, 1000, 1001, 65_535]);
    let count = order.profits;
    match random.from(0, 39) {
        0..=2 => order.lengths[random.from(0, count - 1)] = edge,
        3..=5 => order.widths[random.from(0, count - 1)] = edge,
        6 => order.profits = random.from(0, 17),
        7 => order.lengths.truncate(random.from(0, count)),
        8 => order.widths.push(edge),
        9 => {
            let plates = random.pick(&[0, 16, 17]);
            order.lengths.resize(plates, edge);
            order.widths.resize(plates, 3);
            order.profits = plates;
        }
        _ => {}
    }
}

#[test]
fn generated_racks_agree() {
    let random = &mut Random::new(111);
    let (mut inputs, mut met) = (0, BTreeMap::<u32, usize>::new());
    for choices in 0..=TURNING | FULL_DEMAND | OLD_BLOCK {
        for _ in 0..4000 {
            let plates = random.pick(&[1, 2, 2, 3, 3, 4, 16]);
            let mut rack = draw_rack(random, SMALL, choices, plates);
            damage(random, &mut rack.input);
            damage_rack(random, &mut rack);
            let answer = random.pick(&[0, 1, 1, 1, 2, 2, 3, 3]);
            inputs += 1;
            *met.entry(rack.agrees(answer).0).or_default() += 1;
        }
    }
    println!("of racks: {inputs} inputs, {inputs} calls compared, {met:?}");
    let expected = (0..=7).chain(10..=18).chain(26..=29).chain([100, 101]);
    assert!(expected.eq(met.keys().copied()), "{met:?}");
    assert!(met.values().all(|&times| times >= 20) && met[&0] >= 4000, "{met:?}");
}

/// The baseline in C, which takes the new block and slices of one length, refuses as the reference does.
#[test]
fn the_baseline_of_the_rack_agrees() {
    let random = &mut Random::new(113);
    let mut met = BTreeMap::<u32, usize>::new();
    for i in 0..8000 {
        let plates = random.pick(&[1, 2, 2, 3, 3, 4, 16]);
        let mut rack = draw_rack(random, SMALL, ALL_CHOICES[i % 4], plates);
        damage(random, &mut rack.input);
        damage_rack(random, &mut rack);
        let Order { input: Input { choices, kinds, operands, .. }, lengths, widths, profits } = &rack;
        let even = [lengths.len(), widths.len()] == [*profits; 2] && kinds.len() == operands.len();
        if choices & !(TURNING | FULL_DEMAND) == 0 && even {
            let [mut expected, mut lent] = [rack.memory(2), rack.memory(2)];
            let code = rack.run(reference::calls::check_rack, &mut expected);
            assert_eq!(rack.run(checks::check_rack, &mut lent), code, "{rack:?}");
            assert_eq!(expected.differences(&lent), [""; 0], "{rack:?}");
            *met.entry(code).or_default() += 1;
        }
    }
    println!("racks in C met {met:?}");
    let expected = (0..=7).chain(11..=18).chain(26..=29);
    assert!(expected.eq(met.keys().copied()) && met[&0] >= 1000, "{met:?}");
}

/// The job with the sides of one plate in place of its own.
fn on_plate(rack: &Order, plate: usize) -> Input {
    let mut input = rack.input.clone();
    input.job[..2].copy_from_slice(&rack.lengths[plate].to_le_bytes());
    input.job[2..4].copy_from_slice(&rack.widths[plate].to_le_bytes());
    input
}

/// The plans of a rack, each ending where its tree does; none where a node is wanted or left over.
fn plans(rack: &Order) -> Option<Vec<Vec<Node>>> {
    let mut nodes = rack.input.kinds.iter().copied().zip(rack.input.operands.iter().copied());
    let plans: Option<Vec<Vec<Node>>> = rack.lengths.iter().map(|_| tree(&mut nodes)).collect();
    plans.filter(|_| nodes.next().is_none())
}

fn tree(nodes: &mut impl Iterator<Item = Node>) -> Option<Vec<Node>> {
    let node = nodes.next()?;
    let mut all = vec![node];
    if matches!(node.0, 2 | 3) {
        all.extend(tree(nodes)?);
        all.extend(tree(nodes)?);
    }
    Some(all)
}

/// What the check of one plan reports of each plan on its plate; none where it refuses one.
fn reports_alone(rack: &Order) -> Option<Vec<Vec<u64>>> {
    let report = |(plate, nodes): (usize, &Vec<Node>)| {
        let Input { job, choices, .. } = on_plate(rack, plate);
        let (code, lent) = compare(Call::CheckPlan, &input(job, &[], nodes).with(choices), AMPLE);
        (code == 0).then(|| lent.answer.words().to_vec())
    };
    plans(rack)?.iter().enumerate().map(report).collect()
}

/// A rack passes exactly where each plan passes alone, on its plate, and the copies are within the
/// demands; its profits are theirs.
#[test]
fn a_rack_passes_where_its_plans_do_and_share_the_demands() {
    let (random, mut passed, mut shared) = (&mut Random::new(112), 0, 0);
    for i in 0..4000 {
        let plates = random.from(1, 5);
        let rack = draw_rack(random, SMALL, ALL_CHOICES[i % 4], plates);
        let job = Job::read(&rack.input.job, rack.input.choices).expect("a job");
        let (code, lent) = rack.agrees(1);
        let Some(reports) = reports_alone(&rack) else {
            assert_ne!(code, 0, "{rack:?}");
            continue;
        };
        let copies = |kind: usize| reports.iter().map(|report| report[4 + kind]).sum::<u64>();
        let within = job.kinds.iter().enumerate().all(|(kind, of)| copies(kind) <= of.demand);
        assert_eq!(code, if within { 0 } else { 29 }, "{rack:?}");
        let profits: Vec<u64> = reports.iter().map(|report| report[0]).collect();
        assert!(code != 0 || lent.table.words() == profits, "{rack:?}");
        passed += usize::from(within);
        shared += usize::from(!within);
    }
    println!("{passed} racks pass, {shared} pass a demand together alone");
    assert!(passed >= 1000 && shared >= 50);
}

/// The most that plans on all plates together earn which share the demands.
fn rack_optimum(rack: &Order) -> u64 {
    let job = |plate| {
        let input = on_plate(rack, plate);
        Job::read(&input.job, input.choices).expect("a job")
    };
    let splits = Amounts::of_copies(&job(0)).splits();
    let all = (0..rack.lengths.len()).map(|plate| optima(&job(plate)));
    let together = all.reduce(|so_far, own| {
        let mut best = vec![0; own.len()];
        raise(&mut best, &so_far, &own, &splits);
        best
    });
    *together.expect("a plate").last().expect("a state")
}

/// Each plate under weights of its own, one a kind or two.
fn sum_of_bounds(random: &mut Random, rack: &Order) -> u64 {
    let mut weights = || rack.input.weights.iter().map(|_| random.from(0, 3) as u8).collect::<Vec<u8>>();
    let bound = |plate| {
        let (weights, second) = (weights(), weights());
        let call = if plate % 2 == 0 { Call::Bound } else { Call::BoundTwo };
        words(call, &Input { weights, second, ..on_plate(rack, plate) }, AMPLE)[0]
    };
    (0..rack.lengths.len()).map(bound).sum()
}

/// Of every set of plans, written down or not; and the racks that pass are such sets.
#[test]
fn no_plans_that_share_the_demands_earn_more_than_the_sum_of_the_bounds() {
    let random = &mut Random::new(113);
    let tiny = Scale { plate: 4, kerf: 1, side: 3, kinds: 3, demand: 2, ..SMALL };
    let (mut earned, mut best) = (0, 0);
    for i in 0..1500 {
        let plates = random.from(2, 3);
        let rack = draw_rack(random, tiny, ALL_CHOICES[i % 4], plates);
        let (most, sum) = (rack_optimum(&rack), sum_of_bounds(random, &rack));
        assert!(most <= sum, "{most} is earned, the bounds are {sum}: {rack:?}");
        earned += usize::from(most == sum);
        let (code, lent) = rack.agrees(1);
        let profit: u64 = lent.table.words().iter().fold(0, |sum, &profit| sum.wrapping_add(profit));
        assert!(code != 0 || profit <= most, "{profit} above {most}: {rack:?}");
        best += usize::from(code == 0 && profit == most && most > 0);
    }
    println!("{earned} of 1500 sums of bounds are earned, {best} racks earn the most");
    assert!((100..1400).contains(&earned) && best >= 20);
}

#[test]
fn deepest_racks_fit_the_stack() {
    for (kerf, choices) in [(0, 0), (0, TURNING), (20, 0)] {
        let job = kerf_block(1, 1, kerf, &[(1, 1, 1_000_000, 40)]);
        let whole = (1000, 1000);
        let mut racks: Vec<Order> =
            deep_plans(kerf).iter().map(|plan| order(job.clone(), &[whole], &[plan])).collect();
        let mut sixteen: [&[Node]; 16] = [&[(1, 0)]; 16];
        let last = &deep_plans(20)[0];
        sixteen[15] = last;
        racks.push(order(job.clone(), &[whole; 16], &sixteen));
        racks.extend((kerf == 0).then(|| order(job, &[whole], &[&longest_plan_of_waste()])));
        for rack in racks.into_iter().map(|rack| Order { input: rack.input.with(choices), ..rack }) {
            let (code, expected) = rack.agrees(1);
            let what = format!("CheckRack, choices {choices}, {} nodes", rack.input.kinds.len());
            let (given, lent) = fits_small_stack(&what, || {
                let mut lent = rack.memory(1);
                (rack.run(calls::check_rack, &mut lent), lent)
            });
            assert_eq!((code, given, lent.differences(&expected)), (0, 0, vec![]));
        }
    }
}

/// The most rectangles wait where the last plan ends after its last nested cut.
#[test]
fn racks_that_end_at_their_deepest_fit_the_stack() {
    for nested in [1, 3] {
        let (first, last): (&[Node], _) = (&[(1, 0)], &deep_plans(0)[nested][..1998]);
        let job = kerf_block(1, 1, 0, &[(1, 1, 1, 2)]);
        let rack = order(job, &[(1000, 1000); 2], &[first, last]);
        let (given, lent) = fits_small_stack("CheckRack of a plan that ends", || {
            let mut lent = rack.memory(1);
            (rack.run(calls::check_rack, &mut lent), lent)
        });
        assert_eq!((given, lent.answer.words()[0]), (17, 1999));
        assert_eq!(rack.agrees(1).0, 17);
    }
}
