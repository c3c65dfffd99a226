// Grain: the block, refusals 35 and 36 in their order, what a kind that keeps its grain gives and does not
// give, and grain bytes that are all 0 or all 1 against the choices without grain.
use crate::capacity::words;
use crate::damage::damage;
use crate::exact::optimum;
use crate::examples::{answers, input, lists, refuses, reports, Node};
use crate::inputs::{draw, Scale, SMALL};
use crate::lent::{Lent, Sizes, AMPLE};
use crate::rack::Order;
use crate::run::{Call, Input, ALL_CALLS, ALL_CHOICES, IMPLEMENTATIONS};
use crate::saw::Saw;
use outside::answers::{FULL_DEMAND, GRAIN, OLD_BLOCK, TURNING};
use outside::blocks::{job_block, kerf_block, old_block, Kind};
use outside::random::Random;
use outside::reference::Job;

const ROOM: Sizes = Sizes { lengths: 30, widths: 30, table: 1 << 12, ..AMPLE };

/// Both choices that a kind with grain is read under.
const KEPT: u32 = TURNING | GRAIN;

/// A job block with grain bytes behind it.
fn grained(mut block: Vec<u8>, grains: &[u8], nodes: &[Node]) -> Input {
    let with_own_sizes = input(block.clone(), &vec![0; grains.len()], nodes);
    block.extend(grains);
    Input { job: block, ..with_own_sizes }.with(KEPT)
}

/// Kinds 4 x 1 and 3 x 2 on a plate of 5 x 4.
fn two_kinds(grains: &[u8], nodes: &[Node]) -> Input {
    grained(job_block(5, 4, &[(4, 1, 5, 2), (3, 2, 7, 2)]), grains, nodes)
}

#[test]
fn blocks_have_a_byte_more_a_kind() {
    let kinds: [Kind; 2] = [(4, 1, 5, 2), (3, 2, 7, 2)];
    for (form, block) in [(0, kerf_block(5, 4, 0, &kinds)), (OLD_BLOCK, old_block(5, 4, &kinds))] {
        let sized = |bytes: usize| {
            let mut long = block.clone();
            long.extend([0, 1, 0]);
            long.truncate(bytes);
            Input { job: long, ..two_kinds(&[0, 1], &[(0, 0)]) }.with(KEPT | form)
        };
        for bytes in [block.len(), block.len() + 1, block.len() + 3] {
            ALL_CALLS.into_iter().for_each(|call| refuses(call, &sized(bytes), 4, 0));
        }
        answers(Call::CheckPlan, &sized(block.len() + 2), &[0, 0, 20, 0]);
        let without = sized(block.len() + 2).with(TURNING | form);
        ALL_CALLS.into_iter().for_each(|call| refuses(call, &without, 4, 0));
    }
}

/// Every size, then every pair, then every grain byte; grain before weights, plan and true sizes.
#[test]
fn grain_bytes_are_0_or_1() {
    for (grains, place) in [([2, 0], 0), ([0, 2], 1), ([255, 255], 0), ([1, 128], 1)] {
        for choices in [KEPT, GRAIN, KEPT | FULL_DEMAND] {
            let bad = Input { weights: vec![], sizes: vec![], ..two_kinds(&grains, &[(9, 9)]) };
            ALL_CALLS.into_iter().for_each(|call| refuses(call, &bad.clone().with(choices), 35, place));
        }
    }
    let late = |kinds: &[Kind], number, place| {
        let bad = grained(job_block(5, 4, kinds), &[2, 2], &[]);
        ALL_CALLS.into_iter().for_each(|call| refuses(call, &bad, number, place));
    };
    late(&[(4, 1, 5, 2), (3, 2, 7, 256)], 7, 1);
    late(&[(4, 1, 5, 2), (3, 2, 1_000_001, 2)], 6, 1);
    late(&[(4, 1, 5, 256), (3, 0, 7, 2)], 5, 1);
}

/// Of a turned piece: its number, its grain, and only then whether it fits and its demand.
#[test]
fn turned_pieces_of_a_kind_that_keeps_its_grain_are_refused() {
    let calls = [
        Call::CheckPlan,
        Call::CheckPlanBlock,
        Call::NeatPlan,
        Call::Certify,
        Call::CheckPlanStaged,
        Call::CertifyStaged,
        Call::FindWeights,
        Call::TruePlan,
    ];
    for call in calls {
        let refused = |nodes: &[Node], number, place| {
            refuses(call, &two_kinds(&[1, 0], nodes), number, place);
        };
        refused(&[(4, 0)], 36, 0);
        refused(&[(2, 1), (4, 0), (0, 0)], 36, 1);
        refused(&[(2, 1), (0, 0), (4, 0)], 36, 2);
        refused(&[(3, 1), (4, 0), (0, 0)], 36, 1);
        refused(&[(4, 2)], 13, 0);
        refused(&[(3, 2), (4, 1), (0, 0)], 15, 1);
        refuses(call, &two_kinds(&[1, 0], &[(4, 0)]).with(GRAIN), 12, 0);
        refuses(call, &two_kinds(&[0, 1], &[(4, 1)]), 36, 0);
    }
    let cancelled = grained(job_block(5, 4, &[(4, 1, 5, 0)]), &[1], &[(4, 0)]);
    refuses(Call::CheckPlan, &cancelled, 36, 0);
    reports(&two_kinds(&[0, 1], &[(4, 0)]), 5, [4, 0, 16, 0], &[1]);
    reports(&two_kinds(&[1, 0], &[(1, 0)]), 5, [4, 0, 16, 0], &[1]);
}

/// 4 x 1 upright gives length 4 and width 1; turned also length 1 and width 4; likewise 3 x 2.
#[test]
fn kinds_give_positions_as_they_may_lie() {
    let bound = |grains: &[u8]| two_kinds(grains, &[]);
    lists(&bound(&[1, 1]), &[0, 3, 4], &[0, 1, 2, 3, 4]);
    lists(&bound(&[0, 1]), &[0, 1, 2, 3, 4, 5], &[0, 1, 2, 3, 4]);
    lists(&bound(&[1, 0]), &[0, 2, 3, 4, 5], &[0, 1, 2, 3, 4]);
    lists(&bound(&[1, 0]).with(GRAIN), &[0, 3, 4], &[0, 1, 2, 3, 4]);
}

/// What the plate holds of a kind is counted in rows and columns, and by areas where it may be turned.
#[test]
fn capacities_count_a_kind_as_it_may_lie() {
    let capacity = |grains: &[u8]| {
        let weighed = grained(job_block(5, 5, &[(3, 2, 1, 9), (3, 2, 1, 9)]), grains, &[]);
        words(Call::Bound, &Input { weights: vec![1, 10], ..weighed }, ROOM)[1]
    };
    assert_eq!([[1, 1], [0, 1], [1, 0], [0, 0]].map(|grains| capacity(&grains)), [22, 24, 42, 44]);
}

/// A kind that fits turned only: with its grain kept it gives nothing. A square kind is the same both ways.
#[test]
fn a_kind_that_fits_turned_only_and_a_square_one() {
    let tall = |grain, nodes: &[Node]| grained(job_block(5, 2, &[(2, 5, 9, 1)]), &[grain], nodes);
    answers(Call::Bound, &tall(0, &[]), &[9, 0, 2, 2]);
    answers(Call::Bound, &tall(1, &[]), &[0, 0, 1, 1]);
    refuses(Call::CheckPlan, &tall(1, &[(1, 0)]), 15, 0);
    refuses(Call::CheckPlan, &tall(1, &[(4, 0)]), 36, 0);
    let needed = |grain| words(Call::PlatesNeeded, &tall(grain, &[]), ROOM)[0];
    assert_eq!([needed(0), needed(1)], [1, u64::MAX]);
    let square = |grain| grained(job_block(5, 4, &[(2, 2, 3, 9)]), &[grain], &[]);
    for call in [Call::Bound, Call::WritePlan, Call::Exact] {
        let alike = [0, 1].map(|grain| words(call, &square(grain), ROOM));
        assert_eq!(alike[0], alike[1]);
    }
    refuses(Call::CheckPlan, &Input { kinds: vec![4], operands: vec![0], ..square(1) }, 36, 0);
}

/// The same input without grain and under these choices, and with so many equal grain bytes.
fn with_equal_bytes(input: &Input, grain: u8, choices: u32) -> Input {
    let mut grained = input.clone().with(choices);
    grained.job.extend(vec![grain; input.weights.len()]);
    grained
}

/// Every code and every lent word, of both implementations: bytes of 0 are turning for all, bytes of 1 no
/// turning, and without turning the bytes say nothing. A turned piece is refused by 36 in place of 12.
#[test]
fn equal_bytes_are_turning_for_all_or_none() {
    let random = &mut Random::new(171);
    for i in 0..500 {
        let mut input = draw(random, SMALL, ALL_CHOICES[i % 4]);
        let before = (input.weights.len(), input.job.len(), input.choices);
        damage(random, &mut input);
        if (input.weights.len(), input.job.len(), input.choices) != before {
            continue;
        }
        let upright = input.clone().with(input.choices & !TURNING);
        let cases = [
            (&input, with_equal_bytes(&input, 0, input.choices | GRAIN)),
            (&upright, with_equal_bytes(&upright, 1, upright.choices | KEPT)),
            (&upright, with_equal_bytes(&upright, i as u8 % 2, upright.choices | GRAIN)),
        ];
        for (plain, grained) in cases {
            ALL_CALLS.into_iter().for_each(|call| alike(call, plain, &grained));
        }
    }
}

fn alike(call: Call, plain: &Input, grained: &Input) {
    for calls in IMPLEMENTATIONS {
        let [expected, given] = [plain, grained].map(|input| {
            let mut lent = Lent::new(Sizes { table: 1 << 10, ..AMPLE });
            (call.run(&calls, input, &mut lent), lent)
        });
        if given.0 == 36 {
            assert_eq!(expected.0, 12, "{call:?} {grained:?}");
        } else if given.0 == expected.0 {
            let differences = expected.1.differences(&given.1);
            assert_eq!(differences, [""; 0], "{} {call:?} {grained:?}", calls.name);
        } else {
            let turned = grained.kinds.contains(&4) || grained.plan.contains(&4);
            let late = [expected.0, given.0];
            assert!(turned && late[0] == 12, "{late:?} by {} {call:?} {grained:?}", calls.name);
        }
    }
}

/// The exact answer is what they earn; a bound is never below, and lies between those of no turning and of
/// turning for all.
#[test]
fn no_tree_that_keeps_the_grain_earns_more() {
    let tiny = Scale { plate: 6, side: 4, kinds: 3, demand: 2, ..SMALL };
    let (random, mut between) = (&mut Random::new(172), [0; 2]);
    for i in 0..1500 {
        let choices = KEPT | [0, FULL_DEMAND][i % 2];
        let input = draw(random, tiny, choices);
        let most = optimum(&Job::read(&input.job, choices).expect("a job"));
        assert_eq!(words(Call::Exact, &input, ROOM)[0], most, "{input:?}");
        let bound = |input: &Input| words(Call::Bound, input, ROOM)[0];
        let grained = bound(&input);
        assert!(most <= grained, "{most} is earned, above {grained}: {input:?}");
        let mut plain = input.clone();
        plain.job.truncate(input.job.len() - input.weights.len());
        let free = Input { weights: vec![0; input.weights.len()], ..input };
        let plain = Input { weights: free.weights.clone(), ..plain };
        let [none, all] = [choices & FULL_DEMAND, choices & !GRAIN].map(|c| bound(&plain.clone().with(c)));
        let grained = bound(&free);
        assert!(none <= grained && grained <= all);
        between[0] += usize::from(none < grained);
        between[1] += usize::from(grained < all);
    }
    println!("{between:?} of 1500 bounds are above no turning, and below turning for all");
    assert!(between.iter().all(|&times| times >= 50));
}

/// The saw and the rack read the same block.
#[test]
fn the_saw_and_the_rack_keep_the_grain() {
    let (random, mut met) = (&mut Random::new(173), std::collections::BTreeMap::new());
    for i in 0..6000 {
        let choices = GRAIN | ALL_CHOICES[i % 4] | [0, OLD_BLOCK][i / 4 % 2];
        let mut input = draw(random, SMALL, choices);
        if random.one_in(3) {
            damage(random, &mut input);
        }
        let node = random.from(0, 9) as u64;
        for call in [Saw::Check, Saw::Kinds(node), Saw::Operands(node)] {
            *met.entry(call.agrees(&input, 70).0).or_insert(0) += 1;
        }
        let side =
            |at: usize| input.job.get(at..at + 2).map_or(1, |two| u16::from_le_bytes([two[0], two[1]]));
        let (lengths, widths) = (vec![side(0)], vec![side(2)]);
        *met.entry(Order { input, lengths, widths, profits: 1 }.agrees(1).0).or_insert(0) += 1;
    }
    assert!([0, 4, 12, 15, 35, 36].iter().all(|code| met[code] >= 10), "{met:?}");
}
