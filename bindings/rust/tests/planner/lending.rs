// The table grows to what each call needs and no further, and what was lent before changes no answer.
use crate::{best, planner, AMPLE, WEIGHTS};
use planner::{Ended, Error, Planner};

type Call = fn(&mut Planner) -> Result<u64, Error>;

/// Every call that is lent a table, and the words that it needs on job S.
const CALLS: [(u64, Call); 10] = [
    (60, |planner| Ok(planner.bound(&WEIGHTS)?.bound)),
    (60, |planner| Ok(planner.write_plan(&WEIGHTS)?.0.bound)),
    (60, |planner| Ok(planner.certify(&WEIGHTS, &best().plan())?.bound)),
    (180, |planner| Ok(planner.bound_staged(&WEIGHTS, 1)?.bound)),
    (300, |planner| Ok(planner.certify_staged(&WEIGHTS, 2, &best().plan())?.bound)),
    (120, |planner| Ok(planner.bound_two(&WEIGHTS, &[0, 0, 1])?.bound)),
    (240, |planner| Ok(planner.exact()?.0.optimum)),
    (20, |planner| Ok(planner.find_weights(&best().plan())?.rounds)),
    (60, |planner| Ok(planner.plates_needed(&WEIGHTS, 0)?.plates)),
    (60, |planner| Ok(planner.bound_lagrangian(&WEIGHTS, &[1, 2, 3])?.bound)),
];

#[test]
fn tables_grow_to_what_is_needed() {
    for (words, call) in CALLS {
        assert_eq!(call(&mut planner(8 * words - 1)), Err(Error::Memory(words)));
        assert!(call(&mut planner(8 * words)).is_ok(), "{words} words are enough");
    }
}

#[test]
fn one_planner_makes_all_calls() {
    let ample = &mut planner(AMPLE);
    for (_, call) in CALLS.iter().chain(CALLS.iter().rev()) {
        assert_eq!(call(ample), call(&mut planner(AMPLE)));
    }
}

#[test]
fn rounds_go_as_far_as_the_memory() {
    let rounds = |planner: &mut Planner| {
        let found = planner.find_weights(&best().plan()).expect("round 0 has its table");
        (found.bound, found.rounds, found.weights, found.ended)
    };
    assert_eq!(rounds(&mut planner(8 * 59)), (19, 1, vec![0; 3], Ended::Memory(60)));
    assert_eq!(rounds(&mut planner(8 * 60)), (16, 2, WEIGHTS.into(), Ended::Demands));
    let lent = &mut planner(8 * 60);
    lent.bound(&[0; 3]).expect("a table of one share");
    assert_eq!(rounds(lent), (16, 2, WEIGHTS.into(), Ended::Demands));
}
