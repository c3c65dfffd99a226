// Weights found in rounds: one case for each sentence of the request, worked out by hand; and what
// rounds and refusals leave in lent memory.
use crate::capacity::words;
use crate::examples::{answers, input, refuses, Node};
use crate::lent::{Lent, Sizes, AMPLE};
use crate::run::{compare, Call, Input, ALL_CHOICES, IMPLEMENTATIONS};
use outside::answers::{Refusal, FOUND_WORDS, TURNING};
use outside::blocks::{job_block, job_s, kerf_block};
use outside::slices;

pub const ROOM: Sizes = Sizes { table: 1 << 18, ..AMPLE };

pub const WASTE: [Node; 1] = [(0, 0)];

/// A job and the plan whose profit is the lower figure.
pub fn lending(job: Vec<u8>, nodes: &[Node]) -> Input {
    input(job, &[], nodes)
}

/// Expects the least bound, the rounds run and the weights, 0 past these.
fn finds(input: &Input, bound: u64, rounds: u64, weights: &[u64]) {
    let mut words = vec![bound, rounds];
    words.extend(weights);
    words.resize(FOUND_WORDS, 0);
    answers(Call::FindWeights, input, &words);
}

/// Expects code and first word, and gives the memory.
fn leaves(input: &Input, sizes: Sizes, code: u32, first: u64) -> Lent {
    let (given, lent) = compare(Call::FindWeights, input, sizes);
    assert_eq!((given, lent.answer.words()[0]), (code, first), "{input:?}");
    lent
}

/// What calls of the writer with these weights leave one after the other in one memory, which has the
/// answer of another one at last.
fn written_in_turn(input: &Input, weights: &[&[u8]], sizes: Sizes, answered: &Lent) -> Lent {
    let [_, proved] = IMPLEMENTATIONS;
    let mut lent = Lent::new(sizes);
    for &weights in weights {
        let weighed = Input { weights: weights.to_vec(), ..input.clone() };
        Call::WritePlan.run(&proved, &weighed, &mut lent);
    }
    lent.answer.lend().copy_from_slice(answered.answer.words());
    lent
}

/// Round 0 has one of kind 0 and three of kind 1: d is 0, 1, 1. With a gap of 3 the step is the root of
/// 3, with one of 19 that of 19.
#[test]
fn weights_of_s() {
    let best = [(2, 2), (1, 0), (3, 1), (1, 1), (1, 2)];
    finds(&lending(job_s(), &best), 16, 2, &[0, 1, 0]);
    finds(&lending(job_s(), &WASTE), 16, 2, &[0, 4, 0]);
}

/// Four units where one is ordered: d is 3, the gap 6 and s 4/3, so that the step is 2.
#[test]
fn the_step_is_the_root_of_a_fraction() {
    let job = |nodes: &[Node]| lending(job_block(1, 4, &[(1, 1, 2, 1)]), nodes);
    finds(&job(&[(1, 0)]), 2, 2, &[2]);
    finds(&job(&WASTE), 2, 2, &[2]);
    let five = job_block(1, 5, &[(1, 1, 2, 2)]);
    finds(&lending(five, &[(3, 1), (1, 0), (1, 0)]), 4, 2, &[2]);
}

/// Two of kind 0 are cut and one is ordered. Of kind 1 nine are missing, though the plate holds one or
/// none: 82 squares, and so a step of 1, not of 3.
#[test]
fn distances_are_read_from_the_demands() {
    for size in [(1, 2), (9, 9)] {
        let kinds = [(1, 1, 5, 1), (size.0, size.1, 1, 9)];
        let input = lending(job_block(1, 2, &kinds), &WASTE);
        for choices in ALL_CHOICES {
            finds(&input.clone().with(choices), 5, 2, &[1, 0]);
        }
    }
}

/// The lent plan earns what both rounds have as their bound. Round 0 has kind 0 twice and goes on with a
/// step of 1; the weights of round 0 gave the bound first.
#[test]
fn a_gap_of_0_does_not_stop_and_the_first_weights_stay() {
    let both = [(3, 1), (1, 0), (1, 1)];
    let job = lending(job_block(1, 2, &[(1, 1, 5, 1), (1, 1, 5, 1)]), &both);
    finds(&job, 10, 2, &[0, 0]);
    let lent = leaves(&job, ROOM, 0, 10);
    assert_eq!(lent.kinds.words()[..3], [3, 1, 1]);
    assert_eq!(lent.operands.words()[..3], [1, 1, 0]);
    let turns = written_in_turn(&job, &[&[0, 0], &[1, 0]], ROOM, &lent);
    assert_eq!(lent.differences(&turns), [""; 0]);
}

/// Three turned pieces where two are ordered; with a kerf two where one is.
#[test]
fn turned_and_sawn_pieces_are_copies() {
    let turned = lending(job_block(3, 2, &[(2, 1, 5, 2)]), &WASTE);
    finds(&turned.clone().with(TURNING), 10, 2, &[5]);
    finds(&turned, 10, 1, &[0]);
    finds(&lending(kerf_block(10, 3, 1, &[(3, 3, 5, 1)]), &WASTE), 5, 2, &[4]);
}

/// Units and pairs on a strip of 4, one of each ordered. Four units earn 20, with d of 3 and 1; three 15,
/// with d of 2 and 1; two pairs 16, with d of 1 and 1. The squares sum to 10, 5 and 2. So s is, three
/// rounds at a time: 4, 16, 4; 8, 2, 8; 1, 3/2, 4; 1, 1, 2; and then 1.
const STRIP_ROUNDS: [[u8; 2]; 18] = [
    [0, 0],
    [3, 0],
    [0, 4],
    [3, 2],
    [1, 4],
    [3, 3],
    [1, 5],
    [2, 4],
    [3, 3],
    [1, 5],
    [2, 4],
    [3, 3],
    [2, 4],
    [3, 3],
    [2, 4],
    [3, 3],
    [2, 4],
    [3, 3],
];

fn strip() -> Input {
    lending(job_block(1, 4, &[(1, 1, 5, 1), (1, 2, 8, 1)]), &WASTE)
}

#[test]
fn eighteen_rounds_with_the_factor_halved_after_every_third() {
    finds(&strip(), 15, 18, &[2, 4]);
    let lent = leaves(&strip(), ROOM, 0, 15);
    let rounds = STRIP_ROUNDS.each_ref().map(|weights| &weights[..]);
    let turns = written_in_turn(&strip(), &rounds, ROOM, &lent);
    assert_eq!(lent.differences(&turns), [""; 0]);
}

/// The table needs 10 words for each share: capacities are 0, 3, 4, 5, 5, 6 and 6 from there on. The
/// round that needs more is not counted and leaves what the earlier ones left.
#[test]
fn a_short_table_ends_the_run_after_round_0() {
    leaves(&strip(), Sizes { table: 9, ..ROOM }, 20, 10);
    for (table, rounds, bound, weights) in [
        (10, 1, 20, [0, 0]),
        (39, 1, 20, [0, 0]),
        (40, 2, 16, [3, 0]),
        (49, 2, 16, [3, 0]),
        (50, 3, 16, [3, 0]),
        (59, 3, 16, [3, 0]),
        (60, 5, 16, [3, 0]),
        (69, 5, 16, [3, 0]),
        (70, 18, 15, [2, 4]),
    ] {
        let sizes = Sizes { table, ..ROOM };
        let lent = leaves(&strip(), sizes, 0, bound);
        assert_eq!(lent.answer.words()[1..4], [rounds, weights[0], weights[1]]);
        let counted = STRIP_ROUNDS[..rounds as usize].iter().map(|weights| &weights[..]);
        let turns = written_in_turn(&strip(), &counted.collect::<Vec<_>>(), sizes, &lent);
        assert_eq!(lent.differences(&turns), [""; 0]);
    }
}

/// Two of kind 0 in 3 nodes; then one, where it weighs 2, and three units in the other half: 7 nodes. A
/// round without room for its plan is not counted, but fills the table.
#[test]
fn short_arrays_end_the_run_after_round_0() {
    let job = lending(job_block(2, 3, &[(1, 3, 10, 1), (1, 1, 1, 3)]), &WASTE);
    finds(&job, 13, 2, &[2, 0]);
    for (kinds, operands) in [(2, 3), (3, 2), (0, 9)] {
        leaves(&job, Sizes { kinds, operands, ..ROOM }, 21, 3);
    }
    let both: [&[u8]; 2] = [&[0, 0], &[2, 0]];
    for (kinds, operands) in [(3, 3), (6, 7), (7, 6), (3, 4095), (7, 7)] {
        let sizes = Sizes { kinds, operands, ..ROOM };
        let lent = leaves(&job, sizes, 0, if kinds.min(operands) < 7 { 20 } else { 13 });
        assert_eq!(lent.differences(&written_in_turn(&job, &both, sizes, &lent)), [""; 0]);
        assert_eq!(lent.table.words()[35], 13);
    }
    let lent = leaves(&job, Sizes { kinds: 6, ..ROOM }, 0, 20);
    assert_eq!(lent.answer.words()[1..4], [1, 0, 0]);
    assert_eq!((lent.kinds.words()[..3].to_vec(), lent.operands.words()[0]), (vec![2, 1, 1], 1));
}

/// 18 units where 16 or 17 are ordered, each of the greatest price: 255 times 16 is 4,080.
#[test]
fn a_step_above_255_counts_as_255_and_a_capacity_above_4095_stops() {
    let units = |demand| lending(job_block(1, 18, &[(1, 1, 1_000_000, demand)]), &WASTE);
    for choices in ALL_CHOICES {
        finds(&units(17).with(choices), 18_000_000, 1, &[0]);
    }
    let lent = leaves(&units(16), ROOM, 0, 16_000_000);
    assert_eq!(lent.answer.words()[1..3], [2, 255]);
}

/// Kind 1 is cut twice, once, twice and once: 200 and 200 more are 255. Kind 2 is cut twice in round 1,
/// which adds the root of 50,000, and is missing in round 2, which takes 200 off.
#[test]
fn a_weight_above_255_counts_as_255() {
    let kinds = [(1, 2, 10_000, 1), (1, 2, 30_000, 1), (1, 1, 10_000, 1)];
    let job = lending(job_block(1, 4, &kinds), &WASTE);
    finds(&job, 40_000, 4, &[0, 255, 23]);
    let lent = leaves(&job, ROOM, 0, 40_000);
    let rounds: [&[u8]; 4] = [&[0, 0, 0], &[0, 200, 0], &[0, 200, 223], &[0, 255, 23]];
    assert_eq!(lent.differences(&written_in_turn(&job, &rounds, ROOM, &lent)), [""; 0]);
}

#[test]
fn a_plan_within_the_demands_stops_at_once() {
    let single = lending(job_block(2, 2, &[(2, 2, 7, 1), (1, 1, 1, 9)]), &WASTE);
    finds(&single, 7, 1, &[0, 0]);
    let nothing = lending(job_block(3, 2, &[(1, 1, 7, 0), (4, 4, 9, 2)]), &WASTE);
    for choices in ALL_CHOICES {
        finds(&nothing.clone().with(choices), 0, 1, &[0, 0]);
    }
}

/// The plan is checked before the storage is looked at, and no weights are read.
#[test]
fn refusals_in_order() {
    let job = job_block(9, 9, &[(3, 3, 7, 2), (2, 2, 9, 1)]);
    let none = Sizes { lengths: 9, widths: 10, table: 0, kinds: 0, operands: 0, ..ROOM };
    let expect = |nodes: &[Node], sizes, number, place| {
        leaves(&lending(job.clone(), nodes), sizes, number, place);
    };
    expect(&[], none, 11, 0);
    expect(&[(5, 0)], none, 12, 0);
    expect(&[(2, 3), (1, 0)], none, 17, 2);
    expect(&[(0, 0), (0, 0)], none, 18, 1);
    expect(&[(2, 3), (0, 0), (0, 0)], none, 26, 0);
    expect(&WASTE, none, 19, 0);
    let lists = Sizes { lengths: 10, ..none };
    expect(&WASTE, lists, 20, 81);
    expect(&WASTE, Sizes { table: 80, ..lists }, 20, 81);
    let nodes = words(Call::WritePlan, &input(job.clone(), &[0, 0], &[]), ROOM)[4];
    expect(&WASTE, Sizes { table: 81, ..lists }, 21, nodes);
    let unequal = Input { operands: vec![], ..lending(job, &WASTE) };
    leaves(&unequal, none, 10, 0);
    refuses(Call::FindWeights, &lending(kerf_block(9, 9, 21, &[(1, 1, 1, 256)]), &[]), 27, 0);
    refuses(Call::FindWeights, &lending(job_block(9, 9, &[(1, 1, 1, 256)]), &[]), 7, 0);
    refuses(Call::FindWeights, &lending(vec![], &[]), 1, 0);
}

/// What a refusal in round 0 keeps: all before 20, the table at 20, the plan arrays at 21.
#[test]
fn refusals_keep_what_was_lent() {
    let job = lending(job_s(), &WASTE);
    for (short, number, place) in [
        (Sizes { widths: 3, ..ROOM }, 19, 0),
        (Sizes { table: 19, ..ROOM }, 20, 20),
        (Sizes { kinds: 6, ..ROOM }, 21, 7),
        (Sizes { operands: 6, ..ROOM }, 21, 7),
    ] {
        let lent = leaves(&job, short, number, place);
        let turns = written_in_turn(&job, &[&[0, 0, 0]], short, &lent);
        assert_eq!(lent.differences(&turns), [""; 0]);
        let changed = match number {
            19 => vec!["answer"],
            20 => vec!["lengths", "widths", "answer"],
            _ => vec!["lengths", "widths", "table", "answer"],
        };
        assert_eq!(lent.differences(&Lent::new(short)), changed);
    }
}

/// An order of the literature with the optimum 244. Copies of kinds 1 and 6 pass their demand of 1 in
/// rounds 0 to 2: both, kind 1, kind 6. With its best plan lent every step of theirs is 1.
#[test]
fn rounds_of_chw1() {
    let kinds = [
        (8, 4, 66, 2),
        (3, 7, 35, 1),
        (8, 2, 24, 3),
        (3, 4, 17, 5),
        (3, 3, 11, 2),
        (3, 2, 8, 2),
        (2, 1, 2, 1),
    ];
    let strip = [(2, 3), (3, 2), (1, 5), (3, 4), (1, 3), (1, 3), (2, 3), (3, 3), (1, 4), (1, 1)];
    let rest = [(2, 8), (3, 2), (1, 2), (3, 4), (1, 0), (1, 0), (0, 0)];
    let best = [&strip[..], &rest].concat();
    for (nodes, found) in
        [(&best[..], [[0, 0], [1, 1], [2, 0], [2, 1]]), (&WASTE, [[0, 0], [3, 3], [6, 0], [6, 5]])]
    {
        let job = lending(job_block(15, 10, &kinds), nodes);
        let rounds = found.map(|[first, sixth]| [0, first, 0, 0, 0, 0, sixth]);
        let bounds = rounds.map(|weights| {
            let weighed = Input { weights: weights.to_vec(), ..job.clone() };
            words(Call::Bound, &weighed, ROOM)[0]
        });
        assert_eq!(bounds, [249, 248, 245, 244]);
        finds(&job, 244, 4, &rounds[3].map(u64::from));
        let lent = leaves(&job, ROOM, 0, 244);
        let turns = rounds.each_ref().map(|weights| &weights[..]);
        assert_eq!(lent.differences(&written_in_turn(&job, &turns, ROOM, &lent)), [""; 0]);
    }
}

#[test]
fn typed_answers() {
    let sizes = Sizes { lengths: 6, widths: 4, table: 60, kinds: 7, operands: 7, answer: 0 };
    let mut lent = Lent::new(sizes);
    let (storage, plan, _) = lent.split();
    let found = slices::find_weights(&job_s(), 0, &[1], &[0], storage, plan).expect("weights");
    assert_eq!((found.bound, found.rounds, &found.weights[..3]), (19, 1, &[0, 0, 0][..]));
    let (storage, plan, _) = lent.split();
    let refused = slices::find_weights(&job_s(), 0, &[1], &[3], storage, plan);
    assert_eq!(refused, Err(Refusal { number: 13, place: 0 }));
}
