// Generated jobs with a kerf against the jobs that have it added to every plate and piece side, and
// against every tree that loses it at each cut, at whole units and finer.
use crate::capacity::{done, words};
use crate::exact::optimum;
use crate::examples::Node;
use crate::finer::finer;
use crate::inputs::{draw, Scale, SMALL};
use crate::lent::{Sizes, AMPLE};
use crate::run::{Call, Input, ALL_CHOICES};
use outside::blocks::{kerf_block, Kind};
use outside::random::Random;
use outside::reference::Job;

const WIDE: Scale = Scale { plate: 12, kerf: 4, side: 6, ..SMALL };
const ROOM: Sizes = Sizes { lengths: 33, widths: 33, kinds: 300, operands: 300, ..AMPLE };

/// Generated inputs and their jobs, the words of choices taking turns.
fn generated(seed: u64, count: usize, scale: Scale) -> impl Iterator<Item = (Input, Job)> {
    let mut random = Random::new(seed);
    (0..count).map(move |i| {
        let input = draw(&mut random, scale, ALL_CHOICES[i % 4]);
        let job = Job::read(&input.job, input.choices).expect("a job");
        (input, job)
    })
}

/// The block of a job with this kerf, other sides and other demands.
pub fn changed(
    job: &Job,
    kerf: usize,
    side: impl Fn(usize) -> usize,
    demand: impl Fn(u64) -> u64,
) -> Vec<u8> {
    let side = |old| side(old) as u16;
    let kinds = job
        .kinds
        .iter()
        .map(|kind| (side(kind.length), side(kind.width), kind.price as u32, demand(kind.demand) as u16));
    let kinds: Vec<Kind> = kinds.collect();
    kerf_block(side(job.length), side(job.width), kerf as u16, &kinds)
}

/// The same input with the kerf added to every side, to be cut without loss.
pub fn widened(input: &Input, job: &Job) -> Input {
    let block = changed(job, 0, |side| side + job.kerf, |demand| demand);
    Input { job: block, ..input.clone() }
}

#[test]
fn bound_lists_and_table_are_those_of_the_widened_job() {
    for (input, job) in generated(52, 1000, WIDE) {
        let [sawn, wide] = [&input, &widened(&input, &job)].map(|input| done(Call::Bound, input, ROOM));
        assert_eq!(sawn.differences(&wide), [""; 0], "{input:?}");
    }
}

/// The nodes of a plan for a widened rectangle, as they are sawn: a cut stands a kerf lower, and
/// where its second part is no more than the kerf only the first one's nodes remain.
pub fn saw(kerf: u16, side: [u16; 2], plan: &mut impl Iterator<Item = Node>) -> Vec<Node> {
    let (kind, operand) = plan.next().expect("a node");
    let Some(direction) = [2, 3].iter().position(|&cut| cut == kind) else {
        return vec![(kind, operand)];
    };
    let (mut first, mut second) = (side, side);
    first[direction] = operand;
    second[direction] -= operand;
    let (first, rest) = (saw(kerf, first, plan), saw(kerf, second, plan));
    if second[direction] <= kerf {
        first
    } else {
        [vec![(kind, operand - kerf)], first, rest].concat()
    }
}

#[test]
fn plans_are_those_of_the_widened_job_without_the_cuts_left_out() {
    let mut shorter = 0;
    for (input, job) in generated(53, 4000, WIDE) {
        let [sawn, wide] = [&input, &widened(&input, &job)].map(|input| {
            let plan = input.with_written_plan(&done(Call::WritePlan, input, ROOM));
            plan.kinds.into_iter().zip(plan.operands).collect::<Vec<Node>>()
        });
        let side = [job.length, job.width].map(|side| (side + job.kerf) as u16);
        let nodes = wide.len();
        assert_eq!(sawn, saw(job.kerf as u16, side, &mut wide.into_iter()), "{input:?}");
        shorter += usize::from(sawn.len() < nodes);
    }
    println!("{shorter} of 4000 plans leave a cut out");
    assert!(shorter >= 80);
}

/// Checked with demands that no plan passes.
#[test]
fn written_plans_are_trees_within_the_capacity_that_earn_the_bound() {
    for (input, job) in generated(54, 1500, WIDE) {
        let lent = done(Call::WritePlan, &input, ROOM);
        let ample = changed(&job, job.kerf, |side| side, |demand| demand.min(1) * 255);
        let plan = Input { job: ample, ..input.with_written_plan(&lent) };
        let report = words(Call::CheckPlan, &plan, ROOM);
        let each = report[4..].iter().zip(&input.weights);
        let weight: u64 = each.map(|(copies, &weight)| copies * u64::from(weight)).sum();
        let (bound, capacity) = (lent.answer.words()[0], lent.answer.words()[1]);
        assert!(report[0] == bound && weight <= capacity, "{input:?}");
    }
}

#[test]
fn no_tree_that_loses_the_kerf_earns_more_at_whole_units_or_finer() {
    let tiny = Scale { plate: 6, side: 3, kinds: 3, demand: 2, ..SMALL };
    let (mut compared, mut earned) = (0, 0);
    for (input, job) in generated(55, 600, tiny) {
        let bound = words(Call::Bound, &input, ROOM)[0];
        let most = [1, 2, 3].map(|m| optimum(&finer(&job, m)));
        assert!(most.iter().all(|&most| most <= bound), "{most:?} are earned, bound {bound}: {input:?}");
        compared += 1;
        earned += usize::from(most[0] == bound);
    }
    println!("{earned} of {compared} bounds are earned");
    assert!(compared >= 500 && (200..compared).contains(&earned));
}
