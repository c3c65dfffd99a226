// Generated models and true sizes: the check against every multiset of pieces, what every tree at the true
// sizes earns against the bounds of a model that passes, and true plans replayed on the true plate.
use crate::capacity::{done, words};
use crate::exact::optimum;
use crate::finer::{finer, most_within};
use crate::inputs::{draw, Scale, SMALL};
use crate::lent::{Lent, Sizes, AMPLE};
use crate::run::{compare, Call, Input, ALL_CHOICES};
use outside::answers::{GRAIN, TURNING};
use outside::random::Random;
use outside::reference::{true_job, Job};

const TINY: Scale = Scale { plate: 4, kerf: 1, side: 3, kinds: 3, demand: 2, ..SMALL };
const ROOM: Sizes = Sizes { lengths: 30, widths: 30, table: 1 << 13, kinds: 300, operands: 300, ..AMPLE };

/// Generated inputs, their jobs and their true jobs, the words of choices taking turns.
fn generated(seed: u64, count: usize, scale: Scale, grain: u32) -> impl Iterator<Item = (Input, Job, Job)> {
    let mut random = Random::new(seed);
    (0..count).filter_map(move |i| {
        let input = draw(&mut random, scale, ALL_CHOICES[i % 4] | grain);
        let model = Job::read(&input.job, input.choices).expect("a job");
        let job = true_job(&model, &input.sizes).expect("true sizes");
        (job.length.max(job.width) <= 16).then_some((input, model, job))
    })
}

/// A direction: the sides of a plate or a piece, the one along it first.
type Along = fn([usize; 2]) -> usize;

/// Whether every multiset of pieces, each as it may lie on the true plate, that fits one after another
/// there fits so in the model. The pieces of each way are counted out one by one.
fn every_chain_fits(job: &Job, model: &Job, along: Along) -> bool {
    let ways: Vec<_> = job.pieces().filter(|way| way.fits(job.length, job.width)).collect();
    let mut counts = vec![0; ways.len()];
    loop {
        let extent = |job: &Job| -> usize {
            let taken = ways.iter().zip(&counts).map(|(way, count)| {
                let piece = job.piece(way.kind, way.turned);
                count * (along([piece.length, piece.width]) + job.kerf)
            });
            taken.sum()
        };
        let fits = |job: &Job| extent(job) <= along([job.length, job.width]) + job.kerf;
        if fits(job) && !fits(model) {
            return false;
        }
        let kept = |kind: usize, counts: &[usize]| {
            let copies = ways.iter().zip(counts).filter(|(way, _)| way.kind == kind);
            copies.map(|(_, count)| count).sum::<usize>() <= job.kinds[kind].demand as usize
        };
        let Some(next) = (0..ways.len()).find(|&at| {
            counts[at] += 1;
            let keeps = kept(ways[at].kind, &counts);
            if !keeps {
                counts[at] = 0;
            }
            keeps
        }) else {
            return true;
        };
        assert!(counts[next] > 0);
    }
}

/// Expects the model to pass exactly where every chain fits, along the length before the width.
fn models_agree(seed: u64, grain: u32) {
    let mut seen = [0; 3];
    for (input, model, job) in generated(seed, 3000, SMALL, grain) {
        let directions: [Along; 2] = [|sides| sides[0], |sides| sides[1]];
        let refused = directions.iter().position(|along| !every_chain_fits(&job, &model, *along));
        let (code, lent) = compare(Call::CheckModel, &input, ROOM);
        match refused {
            None => assert_eq!(code, 0, "{input:?}"),
            Some(place) => {
                assert_eq!((code, lent.answer.words()[0]), (33, place as u64), "{input:?}");
            }
        }
        seen[refused.map_or(2, |place| place)] += 1;
    }
    println!("{seen:?} models are refused along the length, along the width, and pass");
    assert!(seen.iter().all(|&times| times >= 40), "{seen:?}");
}

#[test]
fn models_pass_exactly_where_every_chain_fits() {
    models_agree(151, 0);
}

#[test]
fn models_with_grain_pass_exactly_where_every_chain_fits() {
    models_agree(152, GRAIN);
}

/// The least of the bounds of a model that hold without a limit on stages.
fn least_bound(input: &Input) -> u64 {
    let calls = [Call::Bound, Call::BoundTwo, Call::BoundLagrangian, Call::Exact];
    calls.map(|call| words(call, input, ROOM)[0]).into_iter().min().expect("four bounds")
}

/// At whole true units and at halves of them. Of the models that are refused some are below.
fn no_true_tree_earns_more(seed: u64, grain: u32) {
    let (mut passed, mut earned, mut below) = (0, 0, 0);
    for (input, _, job) in generated(seed, 1500, TINY, grain) {
        let bound = least_bound(&input);
        let most = optimum(&job);
        if compare(Call::CheckModel, &input, ROOM).0 != 0 {
            below += usize::from(bound < most);
            continue;
        }
        assert!(most <= bound, "{most} is earned, bound {bound}: {input:?}");
        if passed % 8 == 0 {
            assert!(optimum(&finer(&job, 2)) <= bound, "at halves, bound {bound}: {input:?}");
        }
        passed += 1;
        earned += usize::from(most == bound);
    }
    println!("{earned} of {passed} bounds are earned; {below} are too low where the model is refused");
    assert!(passed >= 300 && earned >= 100 && below >= 10);
}

#[test]
fn no_tree_at_the_true_sizes_earns_more_than_a_bound_of_the_model() {
    no_true_tree_earns_more(153, 0);
}

#[test]
fn no_tree_with_grain_earns_more_than_a_bound_of_the_model() {
    no_true_tree_earns_more(154, GRAIN);
}

#[test]
fn no_true_tree_within_a_limit_earns_more_than_the_staged_bound() {
    let mut passed = 0;
    for (input, _, job) in generated(155, 300, TINY, 0) {
        if compare(Call::CheckModel, &input, ROOM).0 == 0 {
            let most = most_within(&job, 1);
            for limit in [1, 2, 3, 8] {
                let bound = words(Call::BoundStaged, &input.clone().within(limit), ROOM)[0];
                assert!(most[limit as usize] <= bound, "within {limit}: {input:?}");
            }
            passed += 1;
        }
    }
    assert!(passed >= 50, "{passed} models pass");
}

/// What a saw makes of a written true plan.
struct Replay<'a> {
    job: &'a Job,
    nodes: std::iter::Zip<std::slice::Iter<'a, u8>, std::slice::Iter<'a, u32>>,
    copies: Vec<u64>,
}

impl Replay<'_> {
    /// Saws a rectangle and gives what it uses of it: at each cut the first part is used up to the blade.
    fn saw(&mut self, sides: [usize; 2]) -> [usize; 2] {
        let (&kind, &operand) = self.nodes.next().expect("a node");
        let operand = operand as usize;
        if matches!(kind, 2 | 3) {
            let (along, across) = if kind == 2 { (0, 1) } else { (1, 0) };
            let mut parts = [sides; 2];
            parts[0][along] = operand;
            parts[1][along] = self.job.second(sides[along], operand).expect("two parts");
            let [mut used, second] = parts.map(|part| self.saw(part));
            assert!(used[along] == operand && second[along] > 0, "{used:?} before {operand}");
            used[along] += self.job.kerf + second[along];
            used[across] = used[across].max(second[across]);
            return used;
        }
        if kind == 0 {
            return [0; 2];
        }
        let piece = self.job.piece(operand, kind == 4);
        assert!(piece.fits(sides[0], sides[1]) && (kind == 1 || self.job.turns(operand)));
        self.copies[operand] += 1;
        [piece.length, piece.width]
    }
}

/// Replays a true plan on the true plate; the copies are those of the model's plan.
fn is_sawn(input: &Input, job: &Job, lent: &Lent) {
    let &[nodes, length, width, ..] = lent.answer.words() else { panic!("three words") };
    let (kinds, positions) = (lent.kinds.words(), lent.positions.words());
    let nodes = kinds[..nodes as usize].iter().zip(&positions[..nodes as usize]);
    let mut replay = Replay { job, nodes, copies: vec![0; job.kinds.len()] };
    let used = replay.saw([job.length, job.width]);
    assert_eq!(used, [length as usize, width as usize], "{input:?}");
    assert!(replay.nodes.next().is_none());
    let report = words(Call::CheckPlan, input, ROOM);
    assert_eq!(replay.copies, report[4..4 + job.kinds.len()], "{input:?}");
    let profit = replay.copies.iter().zip(&job.kinds).map(|(copies, kind)| copies * kind.price);
    assert_eq!(profit.sum::<u64>(), report[0], "{input:?}");
}

/// The best plans of the model, where it stands for the true sizes and where it does not.
fn true_plans_are_sawn(seed: u64, grain: u32) {
    let scale = Scale { plate: 8, kerf: 1, side: 4, kinds: 3, demand: 2, ..SMALL };
    let (random, mut seen) = (&mut Random::new(seed), [0; 3]);
    for i in 0..2000 {
        let order = draw(random, scale, ALL_CHOICES[i % 4] | grain);
        let input = order.with_written_plan(&done(Call::Exact, &order, ROOM));
        let model = Job::read(&input.job, input.choices).expect("a job");
        let job = true_job(&model, &input.sizes).expect("true sizes");
        let (code, lent) = compare(Call::TruePlan, &input, ROOM);
        if code == 0 {
            is_sawn(&input, &job, &lent);
            seen[0] += 1;
            seen[1] += usize::from(lent.answer.words()[0] > 4);
        }
        seen[2] += usize::from(code == 34);
    }
    println!("{seen:?} true plans, those of more than four nodes, and those that do not fit");
    assert!(seen[0] >= 1000 && seen[1] >= 100 && seen[2] >= 40, "{seen:?}");
}

#[test]
fn true_plans_are_sawn_with_the_true_kerf() {
    true_plans_are_sawn(156, 0);
}

#[test]
fn true_plans_with_grain_are_sawn_with_the_true_kerf() {
    true_plans_are_sawn(157, GRAIN | TURNING);
}
