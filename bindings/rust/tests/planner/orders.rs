// Whole orders and multipliers on job S: two plates of it hold the order, and one does not.
use crate::{planner, AMPLE, WEIGHTS};
use planner::answers::{Bound, Lagrangian, PlatesNeeded, Refusal};
use planner::Error;

#[test]
fn plates_are_counted() {
    let needed = |other| planner(AMPLE).plates_needed(&WEIGHTS, other).expect("a bound");
    assert_eq!(needed(0), PlatesNeeded { plates: 2, bound: 16, worth: 20 });
    assert_eq!([4, 19, 20, u64::MAX].map(|other| needed(other).plates), [1, 1, 0, 0]);
    let short = planner(AMPLE).plates_needed(&[0; 2], 0);
    assert_eq!(short, Err(Error::Refused(Refusal { number: 8, place: 0 })));
}

#[test]
fn multipliers_stand_for_demands() {
    let bound = |multipliers: &[u32]| planner(AMPLE).bound_lagrangian(&[0; 3], multipliers);
    let lowered = |bound| Bound { bound, capacity: 0, lengths: 5, widths: 4 };
    assert_eq!(bound(&[0; 3]), Ok(Lagrangian { bound: 19, lowered: lowered(19) }));
    assert_eq!(bound(&[7, 4, 5]), Ok(Lagrangian { bound: 20, lowered: lowered(0) }));
    let refused = |number, place| Err(Error::Refused(Refusal { number, place }));
    assert_eq!(bound(&[0; 2]), refused(37, 0));
    assert_eq!(bound(&[0, 1_000_001, 1_000_001]), refused(38, 1));
}
