// The deepest and the longest inputs of every call, with and without turning and kerf, on a thread
// with a small stack. A plan on a 1,000 by 1,000 plate nests at most 1,998 cuts; a plan has at most
// 4,095 nodes.
use crate::examples::{input, Node};
use crate::lent::{Lent, Sizes, AMPLE};
use crate::run::{areas_make_up_the_plate, Call, Input, ALL_CHOICES};
use crate::stack::on_small_stack;
use outside::answers::{Words, TURNING};
use outside::blocks::{job_block, kerf_block, Kind};
use outside::random::Random;
use outside::reference::{normal_positions, Job};
use outside::{baseline, reference};

pub const LARGE: Sizes = Sizes { table: 0, ..AMPLE };

/// Expects the reference's code and memory, in each form of the block.
pub fn agrees(call: Call, input: &Input, sizes: Sizes) -> (u32, Lent) {
    let mut expected = Lent::new(sizes);
    let code = call.run(&reference::calls::CALLS, input, &mut expected);
    for form in input.block_forms() {
        let (given, lent) = on_small_stack(call, &form, sizes);
        assert_eq!((given, lent.differences(&expected)), (code, vec![]));
    }
    (code, expected)
}

/// The cuts that bring a 1,000 by 1,000 plate down, each taking one unit and the kerf off a side.
#[derive(Clone, Copy)]
enum Order {
    LengthsThenWidths,
    Alternating,
}

impl Order {
    /// Direction and side before the cut, for each cut.
    fn cuts(self, kerf: u16) -> Vec<(u8, u16)> {
        let sides = (kerf + 2..=1000).rev().step_by(usize::from(kerf) + 1);
        let falling = |kind| sides.clone().map(move |side| (kind, side));
        match self {
            Order::LengthsThenWidths => falling(2).chain(falling(3)).collect(),
            Order::Alternating => falling(2).zip(falling(3)).flat_map(|(l, w)| [l, w]).collect(),
        }
    }
}

/// The last part, where every plan has its only piece: no cut is idle.
pub const UNIT: Node = (1, 0);

/// Each cut inside the second part of the one before.
fn nested_in_second_parts(order: Order, kerf: u16) -> Vec<Node> {
    let slices = order.cuts(kerf).into_iter().flat_map(|(kind, _)| [(kind, 1), (0, 0)]);
    slices.chain([UNIT]).collect()
}

/// Each cut inside the first part of the one before, so that all second parts wait together.
fn nested_in_first_parts(order: Order, kerf: u16) -> Vec<Node> {
    let cuts = order.cuts(kerf).into_iter().map(|(kind, side)| (kind, side - kerf - 1));
    let leaves = std::iter::repeat_n((0, 0), cuts.len());
    cuts.chain([UNIT]).chain(leaves).collect()
}

/// The last leaf, a strip of the whole width, cut into 50 with a second piece: 4,095 nodes.
fn lengthened(mut nodes: Vec<Node>) -> Vec<Node> {
    nodes.pop();
    nodes.extend(std::iter::repeat_n([(3, 1), (0, 0)], 49).flatten());
    nodes.push(UNIT);
    nodes
}

pub fn deep_plans(kerf: u16) -> Vec<Vec<Node>> {
    let mut plans = Vec::new();
    for order in [Order::LengthsThenWidths, Order::Alternating] {
        plans.extend([nested_in_second_parts(order, kerf), nested_in_first_parts(order, kerf)]);
    }
    plans
}

/// 4,095 nodes, two of them pieces.
pub fn longest_plan_of_waste() -> Vec<Node> {
    lengthened(nested_in_first_parts(Order::LengthsThenWidths, 0))
}

#[test]
fn deepest_plans_are_checked_and_certified() {
    let longest = longest_plan_of_waste();
    assert_eq!(longest.len(), 4095);
    for choices in [0, TURNING] {
        for nodes in deep_plans(0).iter().chain([&longest]) {
            deep_plan((0, choices), nodes, 1000);
        }
    }
    for (kerf, units) in [(1, 500), (20, 48)] {
        for nodes in deep_plans(kerf) {
            deep_plan((kerf, 0), &nodes, units);
        }
    }
}

/// A plan of waste and a unit or two, on a plate of so many units each way.
fn deep_plan((kerf, choices): (u16, u32), nodes: &[Node], units: usize) {
    assert!([4 * (999 / (usize::from(kerf) + 1)) + 1, 4095].contains(&nodes.len()));
    let sizes = Sizes { table: (units + 1) * (units + 1), ..LARGE };
    let bound = 7 * (units * units) as u64;
    let profit = 7 * nodes.iter().filter(|node| **node == UNIT).count() as u64;
    let job = kerf_block(1000, 1000, kerf, &[(1, 1, 7, 2)]);
    let input = input(job, &[0], nodes).with(choices);
    for call in [Call::CheckPlan, Call::CheckPlanBlock] {
        let (code, lent) = agrees(call, &input, sizes);
        assert_eq!((code, lent.answer.words()[68] > 0), (0, kerf > 0));
        areas_make_up_the_plate(&input.job, lent.answer.words());
    }
    let (code, lent) = agrees(Call::NeatPlan, &input, sizes);
    assert_eq!((code, lent.answer.words()[0]), (0, 2 * profit / 7 - 1));
    let (code, lent) = on_small_stack(Call::Certify, &input, sizes);
    assert_eq!((code, &lent.answer.words()[..3]), (0, &[bound - profit, bound, profit][..]));
}

/// The most rectangles wait when a plan ends after its last nested cut, or goes wrong there.
#[test]
fn deepest_plans_are_refused() {
    let ends = [
        (0, None, 17),
        (0, Some((4, 0)), 12),
        (0, Some((2, 1)), 14),
        (0, Some((1, 0)), 15),
        (TURNING, Some((5, 0)), 12),
        (TURNING, Some((4, 1)), 13),
        (TURNING, Some((4, 0)), 15),
    ];
    let job = job_block(1000, 1000, &[(40, 30, 7, 1)]);
    for order in [Order::LengthsThenWidths, Order::Alternating] {
        let cuts = &nested_in_first_parts(order, 0)[..1998];
        for (choices, last, number) in ends {
            let nodes: Vec<Node> = cuts.iter().copied().chain(last).collect();
            let input = input(job.clone(), &[0], &nodes).with(choices);
            for call in [Call::CheckPlan, Call::CheckPlanBlock, Call::NeatPlan, Call::Certify] {
                let (code, lent) = agrees(call, &input, LARGE);
                assert_eq!((code, lent.answer.words()[0]), (number, 1998));
            }
        }
    }
}

/// 64 by 32 units, without a kerf and with one; and the 64 by 64 plate in pieces of 2 by 1 that are
/// all turned.
#[test]
fn longest_plans_are_written_checked_and_certified() {
    let [unit, long] = [1, 2].map(|length| vec![(length, 1, 1_000_000, 32); 64]);
    longest_plan(input(job_block(64, 32, &unit), &[0; 64], &[]), 65 * 33, 1);
    longest_plan(input(kerf_block(127, 63, 1, &unit), &[0; 64], &[]), 65 * 33, 1);
    longest_plan(input(job_block(64, 64, &long), &[0; 64], &[]).with(TURNING), 65 * 65, 4);
}

/// Written with 2,048 leaves of one kind of node, then checked and certified with 32 copies of each
/// kind.
fn longest_plan(blank: Input, table: usize, piece: u8) {
    let sizes = Sizes { table, ..LARGE };
    let (code, lent) = agrees(Call::WritePlan, &blank, sizes);
    assert_eq!((code, lent.answer.words()[4]), (0, 4095));
    let mut leaves = 0..2048;
    let nodes = lent.kinds.words().iter().zip(lent.operands.words()).map(|(&kind, &operand)| {
        let leaf = (kind == piece).then(|| leaves.next().expect("2,048 leaves"));
        (kind, leaf.map_or(operand, |leaf| leaf / 32))
    });
    let nodes: Vec<Node> = nodes.collect();
    assert!(leaves.is_empty());
    let full = input(blank.job, &[0; 64], &nodes).with(blank.choices);
    let profit = 2_048_000_000;
    let firsts = [
        (Call::CheckPlan, profit),
        (Call::CheckPlanBlock, profit),
        (Call::NeatPlan, 4095),
        (Call::Certify, 0),
    ];
    for (call, first) in firsts {
        let (code, lent) = agrees(call, &full, sizes);
        assert_eq!((code, lent.answer.words()[0]), (0, first));
    }
}

/// A square plate that just holds so many units in a row, cut apart with the kerf.
#[derive(Clone, Copy)]
struct Square {
    units: u16,
    kerf: u16,
}

impl Square {
    const LARGEST: Square = Square { units: 1000, kerf: 0 };
    const SAWN: Square = Square { units: 500, kerf: 1 };

    fn side(self) -> u16 {
        self.units * (1 + self.kerf) - self.kerf
    }

    fn block(self, kinds: &[Kind]) -> Vec<u8> {
        kerf_block(self.side(), self.side(), self.kerf, kinds)
    }

    /// The cells of a table in which every number of units is normal.
    fn cells(self) -> usize {
        (usize::from(self.units) + 1).pow(2)
    }

    /// Expects the table, from lengths and widths in units.
    fn table_is<const SHARES: usize>(self, lent: &Lent, figures: impl Fn(u64, u64) -> [u64; SHARES]) {
        let units = u64::from(self.units);
        let cells = (0..=units).flat_map(|l| (0..=units).map(move |w| (l, w)));
        assert!(lent.table.words().chunks(SHARES).eq(cells.map(|(l, w)| figures(l, w))));
    }
}

#[test]
fn deepest_plan_is_written() {
    deepest_plan(Square::LARGEST, 0);
}

#[test]
fn deepest_plan_is_written_with_turned_strips() {
    deepest_plan(Square::LARGEST, TURNING);
}

#[test]
fn deepest_plan_is_written_with_a_kerf() {
    deepest_plan(Square::SAWN, 0);
    deepest_plan(Square::SAWN, TURNING);
}

/// Whole strips, which lie turned where they may, have no weight, and one unit of weight 1 is dear:
/// the last strip is cut into units, and the dear one comes last.
fn deepest_plan(plate: Square, choices: u32) {
    let (length, width, piece) = match choices {
        TURNING => (plate.side(), 1, 4),
        _ => (1, plate.side(), 1),
    };
    let kinds = [(length, width, 2000, 1), (1, 1, 1, 1), (1, 1, 100_000, 1)];
    let input = input(plate.block(&kinds), &[0, 0, 1], &[]).with(choices);
    let cuts = usize::from(plate.units) - 1;
    let nodes = 4 * cuts + 1;
    let sizes = Sizes { table: 2 * plate.cells(), kinds: nodes, operands: nodes, ..LARGE };
    let (code, lent) = on_small_stack(Call::WritePlan, &input, sizes);
    assert_eq!(code, 0);
    let bound = cuts * 2000 + cuts + 100_000;
    let answer = [bound, 1, cuts + 2, cuts + 2, nodes].map(|word| word as u64);
    assert_eq!(lent.answer.words()[..5], answer);
    let strips = |cut, piece| std::iter::repeat_n([cut, piece], cuts).flatten();
    assert!(lent.kinds.words().iter().copied().eq(strips(2, piece).chain(strips(3, 1)).chain([1])));
    let operands = |piece| std::iter::repeat_n([1, piece], cuts).flatten();
    assert!(lent.operands.words().iter().copied().eq(operands(0).chain(operands(1)).chain([2])));
    let whole = u64::from(plate.units);
    let strip = |l: u64, w: u64| match (l, w) {
        (_, w) if w == whole => 2000 * l,
        (l, _) if l == whole && choices == TURNING => 2000 * w,
        _ => l * w,
    };
    let rest = |l, w| if w == whole { strip(l - 1, w) + w - 1 } else { strip(l, w - 1) + l - 1 };
    plate.table_is(&lent, |l, w| [strip(l, w), if l * w == 0 { 0 } else { rest(l, w) + 100_000 }]);
}

/// The greatest figure and the longest plan: up to 1,999,999 nodes, which are counted and not written.
#[test]
fn a_million_pieces_are_counted() {
    for (plate, choices) in [(Square::LARGEST, 0), (Square::LARGEST, TURNING), (Square::SAWN, 0)] {
        let sizes = Sizes { table: plate.cells(), ..LARGE };
        let fresh = Lent::new(sizes);
        let input = input(plate.block(&[(1, 1, 1_000_000, 1)]), &[0], &[]).with(choices);
        let (code, lent) = on_small_stack(Call::WritePlan, &input, sizes);
        let pieces = u64::from(plate.units).pow(2);
        assert_eq!((code, lent.answer.words()[0]), (21, 2 * pieces - 1));
        plate.table_is(&lent, |l, w| [l * w * 1_000_000]);
        assert!(lent.kinds == fresh.kinds && lent.operands == fresh.operands);
    }
}

/// 64 kinds on the largest plate, and the greatest capacity on a small one. What is expected comes
/// from a baseline, for the reference is too slow here.
#[test]
fn largest_tables_are_filled() {
    let free = |kerf| input(kerf_block(1000, 1000, kerf, &many_kinds(60)), &[0; 64], &[(0, 0)]);
    let mut weights = [64; 64];
    weights[0] = 63;
    let weighed = |kerf| input(kerf_block(12, 9, kerf, &many_kinds(9)), &weights, &[(0, 0)]);
    for choices in [0, TURNING] {
        assert_eq!(is_filled(&free(0).with(choices), 0), (1001, 1001));
    }
    is_filled(&free(20), 0);
    for choices in ALL_CHOICES {
        assert_eq!(is_filled(&weighed(0).with(choices), 4095), (13, 10));
        is_filled(&weighed(2).with(choices), 4095);
    }
}

/// Gives p and r.
fn is_filled(input: &Input, capacity: usize) -> (usize, usize) {
    let (lengths, widths) = normal_positions(&Job::read(&input.job, input.choices).expect("a job"));
    let (p, r) = (lengths.len(), widths.len());
    let sizes = Sizes { table: p * r * (capacity + 1), ..LARGE };
    let mut filled = Lent::new(sizes);
    let (storage, plan, _) = filled.split();
    let Input { job, choices, weights, .. } = input;
    let written = baseline::rust::write_plan(job, *choices, weights, storage, plan).to_words();
    assert_eq!(written[1..4], [capacity, p, r].map(|number| number as u64));
    let bound = written[0];
    let certificate = [bound, bound, 0];
    let read = Job::read(job, *choices).expect("a job");
    let worth: u64 = read.kinds.iter().map(|kind| kind.demand * kind.price).sum();
    let plates = [worth.div_ceil(bound), bound, worth];
    let lagrangian = [&[bound], &written[..4]].concat();
    let calls = [
        (Call::Bound, &written[..4]),
        (Call::WritePlan, &written),
        (Call::Certify, &certificate),
        (Call::PlatesNeeded, &plates),
        (Call::BoundLagrangian, &lagrangian),
    ];
    for (call, answer) in calls {
        let (code, lent) = on_small_stack(call, input, sizes);
        assert_eq!((code, &lent.answer.words()[..answer.len()]), (0, answer));
        assert!(lent.table == filled.table && lent.lengths == filled.lengths);
    }
    (p, r)
}

/// 64 kinds of sides from 1 up, the larger ones dearer by the unit.
pub fn many_kinds(side: usize) -> Vec<Kind> {
    let random = &mut Random::new(21);
    let mut draw = || (random.from(1, side) as u32, random.from(1, side) as u32);
    let kind = |(l, w): (u32, u32)| (l as u16, w as u16, 1 + l * l * w * w / 16, 1);
    (0..64).map(|_| kind(draw())).collect()
}
