// No more than so many stages: one case for each sentence of the request; and on generated jobs the
// staged bound against every tree within limit and capacity, and within the demands.
use crate::capacity::{done, words};
use crate::exact::Amounts;
use crate::examples::{answers, input, refuses, Node};
use crate::finer::most_within;
use crate::inputs::{draw, Scale, SMALL};
use crate::lent::{Lent, Sizes, AMPLE};
use crate::neat::{nodes, stages};
use crate::run::{compare, Call, Input, ALL_CHOICES, STAGED_CALLS};
use crate::trees::{most, MOST_STAGES};
use outside::answers::{Words, TURNING};
use outside::blocks::{job_block, job_s, kerf_block, Kind};
use outside::random::Random;
use outside::reference::Job;
use outside::slices;

const ROOM: Sizes = Sizes { table: 1 << 18, ..AMPLE };

fn s(limit: u32, nodes: &[Node]) -> Input {
    input(job_s(), &[0, 0, 0], nodes).within(limit)
}

/// Expects a plan to have so many stages: the check passes within them and answers them, and gives 23
/// at this node where the limit is one lower.
fn has_stages(plan: &Input, stages: u32, last: u64) {
    for limit in stages.max(1)..=8 {
        let report = words(Call::CheckPlanStaged, &plan.clone().within(limit), ROOM);
        assert_eq!(report[69], u64::from(stages), "{plan:?}");
        assert_eq!(report[..69], words(Call::CheckPlan, plan, ROOM));
    }
    if stages > 1 {
        for call in [Call::CheckPlanStaged, Call::CertifyStaged] {
            refuses(call, &plan.clone().within(stages - 1), 23, last);
        }
    }
}

/// 12 by 12 with a hundred units to lay.
fn units(nodes: &[Node]) -> Input {
    input(job_block(12, 12, &[(1, 1, 1, 100)]), &[0], nodes)
}

#[test]
fn a_plan_with_no_cut_has_no_stage() {
    has_stages(&s(1, &[(0, 0)]), 0, 0);
    has_stages(&s(1, &[(1, 0)]), 0, 0);
    has_stages(&s(1, &[(4, 1)]).with(TURNING), 0, 0);
}

#[test]
fn cuts_of_one_direction_are_one_stage() {
    has_stages(&units(&[(2, 5), (1, 0), (0, 0)]), 1, 0);
    has_stages(&units(&[(3, 5), (1, 0), (0, 0)]), 1, 0);
    has_stages(&units(&[(2, 1), (1, 0), (2, 1), (1, 0), (2, 1), (1, 0), (0, 0)]), 1, 0);
    has_stages(&units(&[(3, 6), (3, 3), (1, 0), (1, 0), (3, 3), (1, 0), (1, 0)]), 1, 0);
}

#[test]
fn each_change_of_direction_on_a_path_is_one_more() {
    has_stages(&units(&[(2, 5), (3, 2), (1, 0), (1, 0), (1, 0)]), 2, 1);
    has_stages(&units(&[(3, 5), (1, 0), (2, 2), (1, 0), (1, 0)]), 2, 2);
    let three = [(2, 5), (3, 2), (2, 1), (1, 0), (1, 0), (1, 0), (1, 0)];
    has_stages(&units(&three), 3, 2);
    let back = [(2, 5), (2, 2), (3, 4), (3, 2), (2, 1), (1, 0), (1, 0), (1, 0), (1, 0), (1, 0), (0, 0)];
    has_stages(&units(&back), 3, 4);
}

/// Both parts of a cut change the direction, and one of them once more.
#[test]
fn the_most_of_any_path_counts() {
    let both = [(2, 5), (3, 2), (1, 0), (1, 0), (3, 2), (1, 0), (1, 0)];
    has_stages(&units(&both), 2, 1);
    let second = [(2, 5), (3, 2), (1, 0), (1, 0), (3, 2), (1, 0), (2, 1), (1, 0), (1, 0)];
    has_stages(&units(&second), 3, 6);
    let first = [(2, 5), (3, 2), (1, 0), (2, 1), (1, 0), (1, 0), (3, 2), (1, 0), (1, 0)];
    has_stages(&units(&first), 3, 3);
}

/// A piece smaller than its rectangle leaves trim, which no cut frees.
#[test]
fn trim_costs_no_stage() {
    let trimmed = s(1, &[(2, 3), (1, 1), (1, 2)]);
    assert_eq!(words(Call::CheckPlan, &trimmed, ROOM)[3], 15 - 3 - 4);
    has_stages(&trimmed, 1, 0);
    has_stages(&s(1, &[(1, 2)]), 0, 0);
}

/// A chain of cuts, each of the other direction.
fn alternating(cuts: usize) -> Vec<Node> {
    let slices = (0..cuts).flat_map(|i| [(2 + (i % 2) as u8, 1), (1, 0)]);
    slices.chain([(1, 0)]).collect()
}

#[test]
fn all_limits_are_kept() {
    for cuts in 1..=8u32 {
        has_stages(&units(&alternating(cuts as usize)), cuts, 2 * u64::from(cuts) - 2);
    }
    for limit in 1..=8 {
        refuses(Call::CheckPlanStaged, &units(&alternating(9)).within(limit), 23, 2 * u64::from(limit));
    }
}

#[test]
fn too_many_stages_are_told_at_the_first_cut_in_preorder_that_passes_the_limit() {
    let both = [(2, 5), (3, 2), (1, 0), (1, 0), (3, 2), (1, 0), (1, 0)];
    for call in [Call::CheckPlanStaged, Call::CertifyStaged] {
        refuses(call, &units(&both).within(1), 23, 1);
        let later = [(2, 5), (2, 2), (1, 0), (1, 0), (3, 2), (2, 1), (1, 0), (1, 0), (1, 0)];
        refuses(call, &units(&later).within(1), 23, 4);
        refuses(call, &units(&later).within(2), 23, 5);
    }
}

#[test]
fn idle_cuts_come_before_too_many_stages() {
    let late = [(2, 5), (3, 2), (1, 0), (1, 0), (2, 1), (0, 0), (0, 0)];
    for call in [Call::CheckPlanStaged, Call::CertifyStaged] {
        refuses(call, &units(&late).within(1), 26, 4);
        let tail = [(2, 5), (3, 2), (1, 0), (1, 0), (1, 0), (0, 0)];
        refuses(call, &units(&tail).within(1), 18, 5);
        refuses(call, &units(&[(2, 5), (3, 2), (1, 0), (1, 0)]).within(1), 17, 4);
    }
}

/// Every limit outside 1 to 8, with nothing else amiss and with the plan and the storage amiss too.
#[test]
fn limits_outside_1_to_8_are_refused_after_the_weights() {
    let none = Sizes { lengths: 0, widths: 0, table: 0, ..ROOM };
    for limit in [0, 9, 10, 255, 256, 257, 264, 1 << 16 | 1, 1 << 31, 1 << 31 | 8, u32::MAX] {
        for call in STAGED_CALLS {
            for choices in ALL_CHOICES {
                refuses(call, &s(limit, &[(1, 0)]).with(choices), 22, 0);
                let mut broken = s(limit, &[(9, 9)]).with(choices);
                broken.operands.pop();
                assert_eq!(compare(call, &broken, none).0, 22);
            }
            refuses(call, &input(vec![], &[], &[]).within(limit), 1, 0);
            let demand = job_block(5, 3, &[(2, 3, 7, 256)]);
            refuses(call, &input(demand, &[0], &[(1, 0)]).within(limit), 7, 0);
            let kerf = kerf_block(5, 3, 21, &[(2, 3, 7, 1)]);
            refuses(call, &input(kerf, &[0], &[(1, 0)]).within(limit), 27, 0);
        }
        for call in [Call::BoundStaged, Call::CertifyStaged] {
            refuses(call, &input(job_s(), &[0, 0], &[(1, 0)]).within(limit), 8, 0);
            let heavy = job_block(9, 9, &[(1, 1, 7, 81)]);
            refuses(call, &input(heavy, &[51], &[(1, 0)]).within(limit), 9, 0);
        }
    }
}

/// What is amiss is mended one after the other, in the order of the numbers that it draws.
#[test]
fn certificates_refuse_in_order() {
    let job = |demand| job_block(9, 9, &[(1, 1, 7, demand), (2, 2, 9, 2)]);
    let plan = [(2, 5), (3, 2), (1, 0), (1, 0), (2, 1), (0, 0), (0, 0)];
    let short = Sizes { lengths: 9, widths: 9, table: 0, ..ROOM };
    let expect = |input: &Input, sizes, number, place| {
        let (code, lent) = compare(Call::CertifyStaged, input, sizes);
        assert_eq!((code, lent.answer.words()[0]), (number, place));
    };
    let mut i = input(job(256), &[255], &plan).within(0);
    i.operands.pop();
    expect(&i, short, 7, 0);
    i.job = job(255);
    expect(&i, short, 8, 0);
    i.weights.push(0);
    expect(&i, short, 9, 0);
    i.weights[0] = 1;
    expect(&i, short, 22, 0);
    i.limit = 1;
    expect(&i, short, 10, 0);
    i.operands.push(0);
    i.kinds[6] = 7;
    expect(&i, short, 12, 6);
    i.kinds[6] = 0;
    expect(&i, short, 26, 4);
    i.kinds[6] = 1;
    expect(&i, short, 23, 1);
    i.limit = 2;
    expect(&i, short, 19, 0);
    let lists = Sizes { lengths: 10, widths: 10, ..short };
    expect(&i, lists, 20, 5 * 100 * 82);
    let table = Sizes { table: 5 * 100 * 82, ..lists };
    expect(&i, table, 0, 7 * 81 - 21);
}

#[test]
fn lists_are_filled_and_the_table_kept_where_it_is_short() {
    for limit in 1..=8 {
        let needed = (2 * limit as usize + 1) * 60;
        let best = input(job_s(), &[0, 1, 0], &[(1, 0)]).within(limit);
        for call in [Call::BoundStaged, Call::CertifyStaged] {
            for table in [0, 60, needed - 1] {
                let sizes = Sizes { table, ..ROOM };
                let (code, lent) = compare(call, &best, sizes);
                assert_eq!((code, lent.answer.words()[0]), (20, needed as u64));
                assert_eq!(lent.lengths.words()[..5], [0, 2, 3, 4, 5]);
                assert_eq!(lent.widths.words()[..4], [0, 1, 2, 3]);
                assert_eq!(lent.table.words(), Lent::new(sizes).table.words());
            }
            assert_eq!(compare(call, &best, Sizes { table: needed, ..ROOM }).0, 0);
        }
    }
}

#[test]
fn words_needed_are_counted_in_64_bits() {
    let job = job_block(1000, 1000, &[(1, 1, 1, 255), (1, 1, 1, 15)]);
    for choices in ALL_CHOICES {
        for limit in 1..=8 {
            let input = input(job.clone(), &[16, 1], &[(1, 0)]).with(choices).within(limit);
            for call in [Call::BoundStaged, Call::CertifyStaged] {
                let needed = (2 * u64::from(limit) + 1) * 4_104_196_096;
                refuses(call, &input, 20, needed);
            }
        }
    }
}

/// One stage lays two of 2 by 3, two stages three of 3 by 1 beside one of them.
#[test]
fn bounds_of_s() {
    for (limit, bound) in [(1, 14), (2, 19), (3, 19), (8, 19)] {
        answers(Call::BoundStaged, &s(limit, &[]), &[bound, 0, 5, 4]);
    }
    let weighed = |limit, nodes: &[Node]| input(job_s(), &[0, 1, 0], nodes).within(limit);
    for (limit, bound) in [(1, 14), (2, 16), (8, 16)] {
        answers(Call::BoundStaged, &weighed(limit, &[]), &[bound, 2, 5, 4]);
    }
    let best = [(2, 2), (1, 0), (3, 1), (1, 1), (1, 2)];
    refuses(Call::CertifyStaged, &weighed(1, &best), 23, 2);
    answers(Call::CertifyStaged, &weighed(2, &best), &[0, 16, 16]);
    answers(Call::CertifyStaged, &weighed(1, &[(2, 2), (1, 0), (1, 2)]), &[2, 14, 12]);
}

/// No cut; then length first and width first, stage by stage.
#[test]
fn blocks_stand_one_after_the_other() {
    let unit = input(job_block(2, 2, &[(1, 1, 1, 4)]), &[0], &[]).within(2);
    let lent = done(Call::BoundStaged, &unit, ROOM);
    let blocks = [[1, 1, 1, 1], [1, 1, 2, 2], [1, 2, 1, 2], [1, 2, 2, 4], [1, 2, 2, 4]];
    for (words, [a, b, c, d]) in lent.table.words().chunks(9).zip(blocks) {
        assert_eq!(words, [0, 0, 0, 0, a, b, 0, c, d]);
    }
    assert_eq!(lent.table.words()[45..], Lent::new(ROOM).table.words()[45..]);
}

#[test]
fn kinds_that_are_turned_or_cancelled_count_as_in_the_bound() {
    let kinds: [Kind; 3] = [(3, 1, 5, 9), (1, 1, 9, 0), (2, 2, 3, 1)];
    let job = |choices, limit| input(job_block(3, 3, &kinds), &[0; 3], &[]).with(choices).within(limit);
    answers(Call::BoundStaged, &job(0, 1), &[15, 0, 3, 4]);
    answers(Call::BoundStaged, &job(TURNING, 1), &[15, 0, 4, 4]);
    let tall = [(1, 3, 5, 9)];
    let turned = |choices| input(job_block(3, 1, &tall), &[0], &[]).with(choices).within(1);
    answers(Call::BoundStaged, &turned(0), &[0, 0, 1, 1]);
    answers(Call::BoundStaged, &turned(TURNING), &[5, 0, 2, 2]);
}

#[test]
fn typed_answers() {
    let mut lent = Lent::new(Sizes { lengths: 6, widths: 4, table: 300, ..AMPLE });
    let (kinds, operands) = ([2, 1, 3, 1, 1], [2, 0, 1, 1, 2]);
    let report = slices::check_plan_staged(&job_s(), 0, 2, &kinds, &operands).expect("a plan of S");
    assert_eq!((report.report.profit, report.stages), (16, 2));
    let bound = slices::bound_staged(&job_s(), 0, &[0, 1, 0], 2, lent.split().0);
    assert_eq!(bound.expect("a bound").to_words(), [16, 2, 5, 4]);
    let best = slices::certify_staged(&job_s(), 0, &[0, 1, 0], 2, &kinds, &operands, lent.split().0);
    assert_eq!(best.expect("a certificate").to_words(), [0, 16, 16]);
    let refused = slices::bound_staged(&job_s(), 0, &[0, 1, 0], 9, lent.split().0);
    assert_eq!(refused.map_err(|refusal| refusal.number), Err(22));
}

/// Units in a plan of random cuts, one after the other in any rectangle that is left; with a kerf.
fn bushy(random: &mut Random) -> Input {
    let kerf = random.from(0, 2);
    let (mut waiting, mut nodes) = (vec![[random.from(1, 40), random.from(1, 40)]], Vec::new());
    let [length, width] = waiting[0].map(|side| side as u16);
    while let Some(sides) = waiting.pop() {
        let direction = random.from(0, 1);
        let side = sides[direction];
        if side < kerf + 2 || nodes.len() + 2 * waiting.len() > 300 || random.one_in(4) {
            nodes.push((1, 0));
            continue;
        }
        let (mut first, mut second) = (sides, sides);
        first[direction] = random.from(1, side - kerf - 1);
        second[direction] = side - kerf - first[direction];
        nodes.push((2 + direction as u8, first[direction] as u16));
        waiting.extend([second, first]);
    }
    input(kerf_block(length, width, kerf as u16, &[(1, 1, 1, 255)]), &[0], &nodes)
}

#[test]
fn stages_of_generated_plans() {
    let (random, mut met) = (&mut Random::new(71), [0; MOST_STAGES + 2]);
    for i in 0..4000 {
        let plan = bushy(random).with(ALL_CHOICES[i % 4]);
        let report = words(Call::CheckPlan, &plan, ROOM);
        let stages = stages(&nodes(&plan), None).0;
        met[(stages as usize).min(MOST_STAGES + 1)] += 1;
        for limit in 1..=8 {
            let (code, staged) = compare(Call::CheckPlanStaged, &plan.clone().within(limit), ROOM);
            assert_eq!(code, if stages > u64::from(limit) { 23 } else { 0 }, "{plan:?}");
            if code == 0 {
                assert_eq!(staged.answer.words()[..70], [&report[..], &[stages]].concat());
            }
        }
    }
    println!("plans of 0, 1 and so on to 8, and of more stages: {met:?}");
    assert!(met.iter().all(|&times| times >= 50));
}

/// A plate cut into strips, each of the other direction and more than half of what is left; one of each
/// is ordered, prices are areas and each weighs 1. The whole plate needs a stage for each cut.
fn strips(random: &mut Random, cuts: usize, choices: u32) -> Input {
    let (mut sides, mut kinds): ([usize; 2], Vec<[usize; 2]>) = ([1, 1], vec![[1, 1]]);
    let first = random.from(0, 1);
    for i in 0..cuts {
        let direction = (first + i) % 2;
        let mut strip = sides;
        strip[direction] += 1;
        sides[direction] += strip[direction];
        kinds.push(strip);
    }
    let kind = |side: [usize; 2]| (side[0] as u16, side[1] as u16, (side[0] * side[1]) as u32, 1);
    let kinds: Vec<Kind> = kinds.into_iter().map(kind).collect();
    let [length, width] = sides.map(|side| side as u16);
    input(job_block(length, width, &kinds), &vec![1; cuts + 1], &[]).with(choices)
}

/// The bounds within each limit from 1 to 8.
fn bounds(input: &Input) -> Vec<u64> {
    (1..=8).map(|limit| words(Call::BoundStaged, &input.clone().within(limit), ROOM)[0]).collect()
}

const TINY: Scale = Scale { plate: 5, kerf: 1, side: 3, kinds: 3, demand: 2, ..SMALL };

/// For each limit from 0 up the most that a tree within it and the capacity earns.
fn most_within_capacity(input: &Input) -> [u64; MOST_STAGES + 1] {
    let job = Job::read(&input.job, input.choices).expect("a job");
    let capacity = words(Call::Bound, input, ROOM)[1] as usize;
    let amounts = Amounts::up_to([capacity].into_iter());
    let weight = |&weight: &u8| amounts.number(&[weight.into()]);
    most(&job, &amounts, &input.weights.iter().map(weight).collect::<Vec<_>>())
}

/// The bound is exactly the most that a tree within limit and capacity earns.
#[test]
fn the_bound_is_the_most_of_every_tree_within_limit_and_capacity() {
    let (random, mut rises) = (&mut Random::new(72), [0; MOST_STAGES]);
    for i in 0..300 {
        let choices = ALL_CHOICES[i % 4];
        let input = match i % 10 {
            0 => strips(random, 4 + i / 10 % 3, choices),
            _ => draw(random, TINY, choices),
        };
        let most = most_within_capacity(&input);
        assert_eq!(bounds(&input), most[1..], "{input:?}");
        for limit in 1..=MOST_STAGES {
            rises[limit - 1] += usize::from(most[limit] > most[limit - 1]);
        }
    }
    println!("bounds of 300 that rise with stage 1, 2 and so on: {rises:?}");
    assert!(rises[..6].iter().all(|&times| times >= 4));
}

/// Cut at whole units; the certificate's gap is no less than what is missing.
#[test]
fn no_tree_within_limit_and_demands_earns_more() {
    let (random, mut earned) = (&mut Random::new(73), 0);
    let tiny = Scale { plate: 4, ..TINY };
    for i in 0..200 {
        let input = draw(random, tiny, ALL_CHOICES[i % 4]);
        let job = Job::read(&input.job, input.choices).expect("a job");
        let bounds = bounds(&input);
        let most = most_within(&job, 1);
        assert!(most[1..].iter().zip(&bounds).all(|(most, bound)| most <= bound), "{input:?}");
        earned += usize::from(most[1..] == bounds);
    }
    println!("{earned} of 200 jobs have every bound earned within the demands");
    assert!(earned >= 50);
}

/// More stages never lower the bound, which is at most the one without a limit, and reaches it where
/// the plate has no room for a tree of more stages.
#[test]
fn bounds_rise_with_the_limit_up_to_the_one_without() {
    let (random, mut rises) = (&mut Random::new(74), [0; MOST_STAGES]);
    for i in 0..300 {
        let choices = ALL_CHOICES[i % 4];
        let input = match i % 6 {
            0 => strips(random, 4 + i / 6 % 5, choices),
            1 => draw(random, Scale { plate: 14, ..SMALL }, choices),
            _ => draw(random, Scale { plate: 5, ..SMALL }, choices),
        };
        let bound = words(Call::Bound, &input, ROOM)[0];
        let bounds = bounds(&input);
        assert!(bounds.is_sorted() && bounds[7] <= bound, "{input:?}");
        assert!(i % 6 < 2 || bounds[7] == bound, "{input:?}");
        for limit in 1..MOST_STAGES {
            rises[limit] += usize::from(bounds[limit] > bounds[limit - 1]);
        }
    }
    println!("bounds of 300 that rise with stage 2, 3 and so on: {:?}", &rises[1..]);
    assert!(rises[1..].iter().all(|&times| times >= 4));
}
