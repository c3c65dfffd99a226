// The typed wrapper on job S: answers as structs, refusals as errors.
// The calls below it are compared word by word elsewhere.
use crate::lent::{Lent, Sizes};
use outside::answers::{Bound, Certificate, Refusal, Written};
use outside::blocks::{job_s, kerf_block, plan_block};
use outside::slices;

const WEIGHTS: [u8; 3] = [0, 1, 0];
const BOUND: Bound = Bound { bound: 16, capacity: 2, lengths: 5, widths: 4 };

fn lent() -> Lent {
    Lent::new(Sizes { lengths: 6, widths: 4, table: 60, kinds: 5, operands: 5, answer: 0 })
}

#[test]
fn plans_are_reported() {
    let (kinds, operands) = ([2, 1, 3, 1, 1], [2, 0, 1, 1, 2]);
    let report = slices::check_plan(&job_s(), 0, &kinds, &operands).expect("a plan of S");
    assert_eq!((report.profit, report.pieces, report.waste, report.trim), (16, 13, 0, 2));
    assert_eq!((&report.copies[..3], report.copies[3..].iter().sum::<u64>()), (&[1, 1, 1][..], 0));
    let block = plan_block(&kinds, &operands);
    assert_eq!(slices::check_plan_block(&job_s(), 0, &block), Ok(report));
    let early = slices::check_plan(&job_s(), 0, &kinds[..2], &operands[..2]);
    assert_eq!(early, Err(Refusal { number: 17, place: 2 }));
}

#[test]
fn sawdust_is_reported() {
    let job = kerf_block(10, 3, 1, &[(3, 3, 5, 2)]);
    let report = slices::check_plan(&job, 0, &[2, 1, 1], &[3, 0, 0]).expect("two pieces");
    assert_eq!((report.profit, report.copies[0]), (10, 2));
    assert_eq!((report.pieces, report.waste, report.trim, report.sawdust), (18, 0, 9, 3));
}

#[test]
fn bound_and_plan_are_answered() {
    let mut memory = lent();
    assert_eq!(slices::bound(&job_s(), 0, &WEIGHTS, memory.split().0), Ok(BOUND));
    let (storage, plan, _) = memory.split();
    let written = slices::write_plan(&job_s(), 0, &WEIGHTS, storage, plan);
    assert_eq!(written, Ok(Written { bound: BOUND, nodes: 5 }));
    let (kinds, operands) = (memory.kinds.words().to_vec(), memory.operands.words().to_vec());
    let best = slices::certify(&job_s(), 0, &WEIGHTS, &kinds, &operands, memory.split().0);
    assert_eq!(best, Ok(Certificate { gap: 0, bound: 16, profit: 16 }));
}

#[test]
fn refusals_are_errors() {
    let mut memory = lent();
    let refused = slices::bound(&job_s(), 0, &[0, 0], memory.split().0);
    assert_eq!(refused, Err(Refusal { number: 8, place: 0 }));
}
