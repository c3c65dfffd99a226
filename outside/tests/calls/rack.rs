// A rack of plates for one order: one case for each sentence of the request.
use crate::examples::{input, Node};
use crate::lent::{Lent, Sizes};
use crate::run::Input;
use outside::answers::{Passed, Rack, Refusal, OLD_BLOCK, TURNING};
use outside::blocks::{job_block, job_s, kerf_block, old_block};
use outside::{reference, slices, slices::calls};

/// Job, choices and arrays of an input, whose nodes are the plans one after another; and the plates.
#[derive(Clone, Debug)]
pub struct Order {
    pub input: Input,
    pub lengths: Vec<u16>,
    pub widths: Vec<u16>,
    /// How many profits are lent.
    pub profits: usize,
}

pub type CheckRack = fn(&[u8], u32, Rack<'_>, &[u8], &[u16], &mut [u64]) -> u32;

impl Order {
    fn with(self, choices: u32) -> Order {
        Order { input: self.input.with(choices), ..self }
    }

    /// Memory whose table stands for the profits.
    pub fn memory(&self, answer: usize) -> Lent {
        let none = Sizes { lengths: 0, widths: 0, table: 0, kinds: 0, operands: 0, answer };
        Lent::new(Sizes { table: self.profits, ..none })
    }

    pub fn run(&self, check: CheckRack, lent: &mut Lent) -> u32 {
        let Input { job, choices, kinds, operands, .. } = &self.input;
        let (storage, _, answer) = lent.split();
        let rack = Rack { lengths: &self.lengths, widths: &self.widths, profits: storage.table };
        check(job, *choices, rack, kinds, operands, answer)
    }

    /// Runs the reference, and the proved call on each form of the block, and compares code and memory.
    pub fn agrees(&self, answer: usize) -> (u32, Lent) {
        let mut expected = self.memory(answer);
        let code = self.run(reference::calls::check_rack, &mut expected);
        for input in self.input.block_forms() {
            let (form, mut lent) = (Order { input, ..self.clone() }, self.memory(answer));
            let given = form.run(calls::check_rack, &mut lent);
            let differences = expected.differences(&lent);
            assert_eq!((given, differences), (code, vec![]), "{form:?}");
        }
        (code, expected)
    }

    /// Expects these profits and no other change.
    fn passes(&self, profits: &[u64]) {
        let (code, lent) = self.agrees(2);
        assert_eq!((code, lent.table.words()), (0, profits), "{self:?}");
        assert!(lent.answer == self.memory(2).answer);
    }

    /// Expects a refusal, and no change but the place.
    fn refused(&self, number: u32, place: u64) {
        let (code, lent) = self.agrees(2);
        assert_eq!((code, lent.answer.words()[0]), (number, place), "{self:?}");
        assert_eq!(lent.differences(&self.memory(2)), ["answer"]);
        assert_eq!(lent.answer.words()[1], self.memory(2).answer.words()[1]);
    }
}

pub fn order(job: Vec<u8>, plates: &[(u16, u16)], plans: &[&[Node]]) -> Order {
    Order {
        input: input(job, &[], &plans.concat()),
        lengths: plates.iter().map(|plate| plate.0).collect(),
        widths: plates.iter().map(|plate| plate.1).collect(),
        profits: plates.len(),
    }
}

/// Of job S: 2 by 3 for 7, one ordered; 3 by 1 for 4, two; 2 by 2 for 5, one.
fn s(plates: &[(u16, u16)], plans: &[&[Node]]) -> Order {
    order(job_s(), plates, plans)
}

const PLATES: [(u16, u16); 2] = [(2, 3), (3, 3)];
const FIRST: [Node; 1] = [(1, 0)];
const SECOND: [Node; 3] = [(3, 1), (1, 1), (1, 2)];
const WASTE: [Node; 1] = [(0, 0)];

#[test]
fn plans_stand_one_after_another_and_profits_are_written() {
    s(&PLATES, &[&FIRST, &SECOND]).passes(&[7, 9]);
    s(&[PLATES[1], PLATES[0]], &[&SECOND, &FIRST]).passes(&[9, 7]);
    s(&[(1000, 1000); 16], &[&WASTE[..]; 16]).passes(&[0; 16]);
    s(&[(5, 3)], &[&[(2, 2), (1, 0), (3, 1), (1, 1), (1, 2)]]).passes(&[16]);
}

#[test]
fn the_plate_of_the_job_goes_unread() {
    let kinds = [(2, 3, 7, 1), (3, 1, 4, 2), (2, 2, 5, 1)];
    for (length, width) in [(0, 0), (1, 0), (0, 1), (1, 1), (1001, 3), (65_535, 65_535)] {
        order(job_block(length, width, &kinds), &PLATES, &[&FIRST, &SECOND]).passes(&[7, 9]);
        let old = order(old_block(length, width, &kinds), &PLATES, &[&FIRST, &SECOND]);
        old.with(OLD_BLOCK).passes(&[7, 9]);
    }
}

/// Slices of several lengths are no rack.
#[test]
fn racks_of_1_to_16_plates() {
    let plates = |count: usize| s(&vec![(2, 3); count], &vec![&WASTE[..]; count]);
    plates(1).passes(&[0]);
    plates(16).passes(&[0; 16]);
    for count in [0, 17, 100] {
        plates(count).refused(28, 0);
    }
    let two = plates(2);
    Order { lengths: vec![2], ..two.clone() }.refused(28, 0);
    Order { widths: vec![3; 3], ..two.clone() }.refused(28, 0);
    for profits in [0, 1, 3] {
        Order { profits, ..two.clone() }.refused(28, 0);
    }
    let nothing = Order { input: Input::default(), ..plates(17) };
    nothing.refused(28, 0);
}

/// The numbers of the job but for 2, then 2 of the plates, then 10 and 11.
#[test]
fn plates_are_read_after_the_job() {
    let wrong = [(2, 3), (0, 3), (2, 1001)];
    let job = |price, demand| job_block(5, 3, &[(2, 3, 7, 1), (3, 1, price, demand)]);
    order(vec![0; 7], &wrong, &[]).refused(1, 0);
    order(kerf_block(5, 3, 21, &[(2, 3, 7, 1)]), &wrong, &[]).refused(27, 0);
    order(job_block(5, 3, &[]), &wrong, &[]).refused(3, 0);
    order(job_s()[..37].to_vec(), &wrong, &[]).refused(4, 0);
    order(job_block(5, 3, &[(2, 3, 7, 1), (3, 0, 7, 1)]), &wrong, &[]).refused(5, 1);
    order(job(1_000_001, 1), &wrong, &[]).refused(6, 1);
    order(job(1, 256), &wrong, &[]).refused(7, 1);
    order(job(1, 1), &wrong, &[]).refused(2, 1);
    for plate in [(0, 3), (2, 0), (1001, 3), (2, 1001), (65_535, 1)] {
        s(&[(2, 3), (1000, 1000), plate], &[]).refused(2, 2);
    }
    let mut unequal = s(&PLATES, &[&FIRST, &SECOND]);
    unequal.input.operands.pop();
    unequal.refused(10, 0);
    s(&PLATES, &[]).refused(11, 0);
}

/// Each plan cuts so many units off the width, the last of them a piece: 2 units - 1 nodes.
#[test]
fn up_to_4095_nodes_in_all() {
    let row = |units: usize| {
        let cuts = std::iter::repeat_n([(3, 1), (0, 0)], units - 1).flatten();
        cuts.chain([(1, 0)]).collect::<Vec<Node>>()
    };
    let rack = |units: &[usize]| {
        let plans: Vec<Vec<Node>> = units.iter().map(|&units| row(units)).collect();
        let plans: Vec<&[Node]> = plans.iter().map(|plan| &plan[..]).collect();
        order(job_block(1, 1, &[(3, 1, 4, 16)]), &vec![(3, 1000); units.len()], &plans)
    };
    rack(&[1000, 1000, 49]).passes(&[4; 3]);
    rack(&[1000, 1000, 25, 25]).refused(11, 0);
    rack(&[128; 16]).passes(&[4; 16]);
    rack(&[1000; 5]).refused(11, 0);
}

/// The second plan starts at node 1.
#[test]
fn nodes_are_numbered_throughout() {
    let second = |nodes: &[Node], number, place| s(&PLATES, &[&FIRST, nodes]).refused(number, place);
    second(&[(3, 1), (4, 1), (1, 2)], 12, 2);
    second(&[(3, 1), (1, 3), (1, 2)], 13, 2);
    second(&[(3, 3), (1, 1), (1, 2)], 14, 1);
    second(&[(3, 1), (1, 2), (1, 1)], 15, 2);
    second(&[(2, 2), (1, 0), (3, 1), (0, 0), (1, 0)], 15, 5);
    second(&[(3, 1), (1, 1)], 17, 3);
    second(&[(3, 1), (1, 1), (2, 1), (0, 0), (0, 0)], 26, 3);
    second(&[(3, 1), (1, 1), (1, 2), (0, 0)], 18, 4);
}

/// The cut of the first plan has the second plan's node as its second part; then the second plan wants
/// one.
#[test]
fn an_incomplete_plan_takes_the_next_ones_nodes() {
    s(&[(5, 3), (3, 3)], &[&[(2, 2), (1, 0)], &[(1, 1)]]).refused(17, 3);
    s(&[(5, 3), (3, 3)], &[&[(2, 2), (1, 0)], &[(1, 1)], &WASTE]).passes(&[11, 0]);
}

/// A plan's own copies are counted at its nodes, those of the rack after the plan that passes a demand.
#[test]
fn copies_add_up_over_the_rack() {
    let plates = [(2, 3), (2, 3), (2, 3)];
    s(&plates, &[&FIRST, &FIRST, &WASTE]).refused(29, 1);
    s(&plates, &[&FIRST, &WASTE, &FIRST]).refused(29, 2);
    s(&plates, &[&WASTE, &FIRST, &WASTE]).passes(&[0, 7, 0]);
    let twice = [(2, 2), (1, 0), (1, 0)];
    s(&[(2, 3), (4, 3)], &[&FIRST, &twice]).refused(16, 3);
    let pair = [(3, 1), (1, 1), (1, 1)];
    s(&[(3, 2), (3, 1)], &[&pair, &[(1, 1)]]).refused(29, 1);
    s(&[(3, 1), (3, 1), (2, 3)], &[&[(1, 1)], &[(1, 1)], &FIRST]).passes(&[4, 4, 7]);
    order(job_block(1, 1, &[(2, 3, 7, 0)]), &plates[..1], &[&FIRST]).refused(16, 0);
    let turned = s(&[(2, 3), (3, 2)], &[&FIRST, &[(4, 0)]]);
    turned.clone().with(TURNING).refused(29, 1);
    turned.refused(12, 1);
}

/// A plan's own checks, 26 and 29 before the next plan's; 18 last.
#[test]
fn plans_are_checked_in_rack_order() {
    let (idle, wrong): ([Node; 3], [Node; 1]) = ([(2, 1), (0, 0), (0, 0)], [(1, 9)]);
    let three = [(2, 3), (2, 3), (2, 3)];
    s(&three, &[&idle, &wrong, &WASTE]).refused(26, 0);
    s(&three, &[&FIRST, &idle, &wrong]).refused(26, 1);
    s(&three, &[&FIRST, &FIRST, &wrong]).refused(29, 1);
    s(&three, &[&wrong, &FIRST, &FIRST]).refused(13, 0);
    s(&three, &[&idle]).refused(26, 0);
    s(&three, &[&FIRST, &FIRST]).refused(29, 1);
    s(&three, &[&FIRST, &WASTE]).refused(17, 2);
    s(&three[..2], &[&FIRST, &FIRST, &WASTE]).refused(29, 1);
    s(&three[..2], &[&FIRST, &idle, &WASTE]).refused(26, 1);
    s(&three[..2], &[&FIRST, &WASTE, &wrong]).refused(18, 2);
    let both: [Node; 5] = [(2, 1), (3, 1), (0, 0), (0, 0), (1, 0)];
    s(&[(2, 3), (3, 3)], &[&FIRST, &both]).refused(26, 2);
}

#[test]
fn turned_and_sawn_plans_are_checked() {
    let turned = s(&[(3, 2), (1, 3)], &[&[(4, 0)], &[(4, 1)]]);
    turned.clone().with(TURNING).passes(&[7, 4]);
    turned.refused(12, 0);
    let sawn = |position| {
        let plans: [&[Node]; 2] = [&[(2, 3), (1, 0), (1, 0)], &[(3, position), (1, 0), (0, 0)]];
        order(kerf_block(1, 1, 2, &[(3, 3, 5, 3)]), &[(8, 3), (3, 6)], &plans)
    };
    sawn(3).passes(&[10, 5]);
    sawn(4).refused(14, 3);
}

#[test]
fn short_answers_and_unknown_choices_change_nothing() {
    let passed = s(&PLATES, &[&FIRST, &SECOND]);
    for order in [passed.clone(), s(&[], &[])] {
        let unknown = order.clone().with(16);
        for (order, answer, expected) in
            [(&order, 0, 100), (&unknown, 0, 100), (&unknown, 1, 101), (&unknown, 9, 101)]
        {
            let (code, lent) = order.agrees(answer);
            assert_eq!((code, lent.differences(&order.memory(answer))), (expected, vec![]));
        }
    }
    let (code, lent) = passed.agrees(1);
    assert_eq!((code, lent.table.words()), (0, &[7, 9][..]));
}

#[test]
fn typed_answers() {
    let (kinds, operands) = ([1, 3, 1, 1], [0, 1, 1, 2]);
    let mut profits = [1, 1];
    let rack = Rack { lengths: &[2, 3], widths: &[3, 3], profits: &mut profits };
    assert_eq!(slices::check_rack(&job_s(), 0, rack, &kinds, &operands), Ok(Passed));
    assert_eq!(profits, [7, 9]);
    let rack = Rack { lengths: &[2, 0], widths: &[3, 3], profits: &mut profits };
    let refused = slices::check_rack(&job_s(), 0, rack, &kinds, &operands);
    assert_eq!((refused, profits), (Err(Refusal { number: 2, place: 1 }), [7, 9]));
}
