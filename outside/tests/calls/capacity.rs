// The capacity: what it counts of a kind, upright and turning, in the default form and in full
// demand; its limit; and the table that it asks for.
use crate::examples::{answers, input, refuses};
use crate::lent::{Lent, Sizes, AMPLE};
use crate::run::{compare, Call, Input, ALL_CHOICES, WEIGHING_CALLS};
use outside::answers::{FULL_DEMAND, TURNING};
use outside::blocks::{job_block, kerf_block, Kind};

pub const ROOM: Sizes = Sizes { table: 1 << 16, kinds: 256, operands: 256, ..AMPLE };

/// So many copies, of weight 1, of one size.
fn copies(demand: u16, size: (u16, u16), plate: (u16, u16)) -> Input {
    sawn_copies(0, demand, size, plate)
}

/// The same, cut apart with a kerf.
fn sawn_copies(kerf: u16, demand: u16, size: (u16, u16), plate: (u16, u16)) -> Input {
    let kind = (size.0, size.1, 1, demand);
    input(kerf_block(plate.0, plate.1, kerf, &[kind]), &[1], &[(0, 0)])
}

/// The memory that a call leaves, which must be done.
pub fn done(call: Call, input: &Input, sizes: Sizes) -> Lent {
    let (code, lent) = compare(call, input, sizes);
    assert_eq!(code, 0, "{call:?} {input:?}");
    lent
}

pub fn words(call: Call, input: &Input, sizes: Sizes) -> Vec<u64> {
    done(call, input, sizes).answer.words()[..call.answer_words()].to_vec()
}

/// The code and the first word of a call that is lent no table. Where the weights are accepted these
/// are 20 and the words that the table needs.
pub fn without_table(call: Call, input: &Input) -> (u32, u64) {
    let (code, lent) = compare(call, input, Sizes { table: 0, ..ROOM });
    (code, lent.answer.words()[0])
}

/// The same input in the default form and in the full-demand form.
pub fn forms(input: &Input) -> [Input; 2] {
    [0, FULL_DEMAND].map(|form| input.clone().with(input.choices & TURNING | form))
}

/// Expects the capacities with each word of choices: upright, turning, and both in full demand.
fn capacities(job: &Input, expected: [u64; 4]) {
    for call in [Call::Bound, Call::WritePlan] {
        let capacity = |choices| words(call, &job.clone().with(choices), ROOM)[1];
        assert_eq!(ALL_CHOICES.map(capacity), expected);
    }
}

/// Expects the words that the table needs, with each word of choices.
fn table_words(job: &Input, expected: [u64; 4]) {
    for call in WEIGHING_CALLS {
        let needed = |choices| without_table(call, &job.clone().with(choices));
        assert_eq!(ALL_CHOICES.map(needed), expected.map(|words| (20, words)));
    }
}

#[test]
fn upright_copies_lie_in_rows_and_columns() {
    capacities(&copies(200, (4, 3), (10, 5)), [2, 4, 200, 200]);
    capacities(&copies(200, (2, 3), (7, 7)), [6, 8, 200, 200]);
}

#[test]
fn a_kind_that_fits_neither_way_counts_nothing() {
    capacities(&copies(200, (4, 1), (3, 3)), [0, 0, 200, 200]);
    capacities(&copies(200, (1, 4), (3, 3)), [0, 0, 200, 200]);
}

#[test]
fn with_turning_areas_count_if_one_way_fits() {
    capacities(&copies(200, (2, 7), (10, 3)), [0, 2, 200, 200]);
    capacities(&copies(200, (7, 2), (10, 3)), [1, 2, 200, 200]);
}

/// The plate has no kerf after its last copy.
#[test]
fn the_kerf_lies_between_copies() {
    capacities(&sawn_copies(1, 200, (4, 3), (10, 5)), [2, 3, 200, 200]);
    capacities(&sawn_copies(2, 200, (4, 3), (10, 5)), [2, 2, 200, 200]);
    capacities(&sawn_copies(3, 200, (4, 3), (10, 5)), [1, 2, 200, 200]);
    capacities(&sawn_copies(20, 200, (10, 5), (10, 5)), [1, 1, 200, 200]);
    capacities(&sawn_copies(20, 200, (5, 10), (10, 5)), [0, 1, 200, 200]);
    capacities(&sawn_copies(20, 200, (9, 6), (10, 5)), [0, 0, 200, 200]);
}

#[test]
fn a_lesser_demand_counts_itself() {
    for (demand, turning) in [(0, 0), (1, 1), (2, 2), (3, 3), (5, 4)] {
        let full = u64::from(demand);
        capacities(&copies(demand, (4, 3), (10, 5)), [full.min(2), turning, full, full]);
    }
}

#[test]
fn every_kind_counts_by_its_weight() {
    let kinds = [(4, 3, 1, 200), (5, 5, 1, 1), (11, 1, 1, 9), (2, 2, 1, 100), (3, 3, 1, 200)];
    let job = input(job_block(10, 5, &kinds), &[3, 7, 5, 1, 0], &[(0, 0)]);
    capacities(&job, [2 * 3 + 7 + 10, 4 * 3 + 7 + 12, 752, 752]);
}

#[test]
fn the_table_has_a_word_for_each_share_of_the_capacity() {
    table_words(&copies(200, (4, 3), (10, 5)), [6 * 3, 24 * 5, 6 * 201, 24 * 201]);
}

#[test]
fn full_demands_up_to_4095() {
    let job = |weight| input(job_block(2, 2, &[(1, 1, 3, 255)]), &[weight], &[(1, 0)]);
    let unit = |last| input(job_block(1, 1, &[(1, 1, 3, 255), (1, 1, 4, last)]), &[16, 1], &[]);
    for choices in [FULL_DEMAND, TURNING | FULL_DEMAND] {
        assert_eq!(words(Call::Bound, &job(16).with(choices), ROOM), [12, 4080, 3, 3]);
        for call in WEIGHING_CALLS {
            refuses(call, &job(17).with(choices), 9, 0);
        }
        answers(Call::Bound, &unit(15).with(choices), &[4, 4095, 2, 2]);
        refuses(Call::Bound, &unit(16).with(choices), 9, 0);
    }
    for choices in [0, TURNING] {
        answers(Call::Bound, &job(16).with(choices), &[12, 4 * 16, 3, 3]);
        answers(Call::Bound, &job(17).with(choices), &[12, 4 * 17, 3, 3]);
    }
}

/// Two copies each of eight kinds, and one of the last.
#[test]
fn held_copies_up_to_4095() {
    let mut kinds: Vec<Kind> = vec![(1, 1, 3, 255); 8];
    kinds.push((2, 1, 4, 255));
    let job = |last| {
        let mut weights = [255; 9];
        weights[8] = last;
        input(job_block(2, 1, &kinds), &weights, &[(1, 8)])
    };
    for choices in [0, TURNING] {
        answers(Call::Bound, &job(15).with(choices), &[6, 4095, 3, 2]);
        answers(Call::Certify, &job(15).with(choices), &[2, 6, 4]);
        for call in WEIGHING_CALLS {
            refuses(call, &job(16).with(choices), 9, 0);
            refuses(call, &job(15).with(choices | FULL_DEMAND), 9, 0);
        }
    }
}

/// With a kerf the plate holds one copy of each kind, and two without.
#[test]
fn sawn_copies_up_to_4095() {
    let kinds: Vec<Kind> = vec![(1, 1, 3, 255); 17];
    let job = |kerf, last| {
        let mut weights = [255; 17];
        weights[16] = last;
        input(kerf_block(2, 1, kerf, &kinds), &weights, &[(1, 0)])
    };
    for choices in [0, TURNING] {
        answers(Call::Bound, &job(1, 15).with(choices), &[3, 4095, 2, 2]);
        for call in WEIGHING_CALLS {
            refuses(call, &job(1, 16).with(choices), 9, 0);
            refuses(call, &job(0, 15).with(choices), 9, 0);
        }
    }
}

#[test]
fn nothing_wraps() {
    table_words(&copies(255, (1, 1), (256, 256)), [257 * 257 * 256; 4]);
    table_words(&copies(255, (256, 256), (1000, 1000)), [16 * 10, 16 * 16, 16 * 256, 16 * 256]);
    let kinds: Vec<Kind> = vec![(1, 1, 1, 255); 64];
    let most = input(job_block(1000, 1000, &kinds), &[255; 64], &[]);
    let wrapping = input(job_block(1000, 1000, &kinds[..3]), &[255, 2, 1], &[]);
    for choices in ALL_CHOICES {
        refuses(Call::Bound, &most.clone().with(choices), 9, 0);
        refuses(Call::Bound, &wrapping.clone().with(choices), 9, 0);
    }
}

/// Two copies of kind 1 weigh 4, more than the default form takes.
#[test]
fn what_the_plate_holds_certifies_more() {
    let nodes = [(2, 2), (1, 1), (1, 0)];
    let job = input(job_block(5, 3, &[(3, 3, 1, 200), (2, 3, 9, 1)]), &[1, 2], &nodes);
    for (choices, widths) in [(0, 2), (TURNING, 3)] {
        let [held, full] = forms(&job.clone().with(choices));
        answers(Call::Bound, &held, &[10, 3, 5, widths]);
        answers(Call::Certify, &held, &[0, 10, 10]);
        answers(Call::Bound, &full, &[18, 202, 5, widths]);
        answers(Call::Certify, &full, &[8, 18, 10]);
    }
}

/// Upright, as many copies are counted as the unweighted bound cuts of a kind of price 1; with
/// turning no fewer.
#[test]
fn no_plate_holds_more_copies_than_counted() {
    let plates = [(0, (8, 8)), (0, (7, 5)), (1, (8, 8)), (2, (4, 9)), (3, (9, 7)), (1, (1, 6))];
    for (kerf, plate) in plates {
        for size in (1..=9).flat_map(|length| (1..=9).map(move |width| (length, width))) {
            let counted = sawn_copies(kerf, 255, size, plate);
            let cut = Input { weights: vec![0], ..counted.clone() };
            let [upright, turning] = [0, TURNING].map(|choices| {
                let words = |job: &Input| words(Call::Bound, &job.clone().with(choices), ROOM);
                (words(&counted)[1], words(&cut)[0])
            });
            assert_eq!(upright.0, upright.1, "{size:?} on {plate:?}, kerf {kerf}");
            assert!(turning.0 >= turning.1, "{size:?} on {plate:?}, kerf {kerf}");
        }
    }
}
