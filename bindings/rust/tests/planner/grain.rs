// Grain: a kind that keeps it lies upright only, in every call that reads a plan or a job.
use crate::{job_s, piece, AMPLE, WEIGHTS};
use planner::answers::Refusal;
use planner::{Choices, Error, Planner, Tree};

fn planner(grain: [bool; 3]) -> Planner {
    let mut job = job_s();
    job.kinds.iter_mut().zip(grain).for_each(|(kind, grain)| kind.grain = grain);
    Planner::new(&job, Choices { turning: true, grain: true, ..Choices::default() }, AMPLE)
}

#[test]
fn a_kind_that_keeps_its_grain_is_not_turned() {
    let plan = Tree::Piece { kind: 1, turned: true }.plan();
    assert!(planner([true, false, true]).check(&plan).is_ok());
    let refused = planner([false, true, false]).check(&plan);
    assert_eq!(refused, Err(Error::Refused(Refusal { number: 36, place: 0 })));
    assert!(planner([true; 3]).check(&piece(1).plan()).is_ok());
}

#[test]
fn the_bound_lies_between_turning_all_and_none() {
    let bound = |grain| planner(grain).bound(&WEIGHTS).expect("a bound").bound;
    assert_eq!(bound([false; 3]), 18);
    assert_eq!(bound([true, false, true]), 18);
    assert_eq!(bound([false, true, false]), 18);
    assert_eq!(bound([true; 3]), 16);
}
