// The choices reach every call: what turning gives on job S, and that pieces may not be turned without it.
use crate::{across, along, job_s, piece, planner, AMPLE, WEIGHTS};
use planner::answers::Refusal;
use planner::{Choices, Error, Job, Planner, Plate, Tree};

/// A tree of S with a turned piece, within two stages.
fn turned() -> Tree {
    let right = along(2, piece(0), across(2, piece(2), Tree::Waste));
    along(1, Tree::Piece { kind: 1, turned: true }, right)
}

fn turning() -> Planner {
    Planner::new(&job_s(), Choices { turning: true, ..Choices::default() }, AMPLE)
}

/// What becomes of the tree in each call that reads a plan.
fn judged(planner: &mut Planner) -> [Result<(), Error>; 9] {
    let plan = turned().plan();
    let plate = Plate { length: 5, width: 3, tree: turned() };
    [
        planner.check(&plan).map(drop),
        planner.check_block(&plan.block()).map(drop),
        planner.check_staged(2, &plan).map(drop),
        planner.check_rack(&[plate]).map(drop),
        planner.check_at_saw(&plan).map(drop),
        planner.neat(&plan).map(drop),
        planner.certify(&WEIGHTS, &plan).map(drop),
        planner.certify_staged(&WEIGHTS, 2, &plan).map(drop),
        planner.find_weights(&plan).map(drop),
    ]
}

#[test]
fn turned_pieces_are_refused_unless_chosen() {
    assert_eq!(judged(&mut turning()), [Ok(()); 9]);
    assert_eq!(judged(&mut planner(AMPLE)), [Err(Error::Refused(Refusal { number: 12, place: 1 })); 9]);
    let part = Tree::Piece { kind: 1, turned: true };
    assert_eq!(turning().tree_at_saw(&turned().plan(), 1), Ok(Some(part)));
    assert_eq!(planner(0).tree_at_saw(&turned().plan(), 1), Ok(None));
}

#[test]
fn turning_gives_more() {
    let (upright, turning) = (&mut planner(AMPLE), &mut turning());
    let bounds = |planner: &mut Planner| {
        let (written, plan) = planner.write_plan(&WEIGHTS).expect("a plan");
        let (exact, _) = planner.exact().expect("a short order");
        let bounds = [
            planner.bound(&WEIGHTS).expect("a bound").bound,
            planner.bound_staged(&WEIGHTS, 1).expect("a bound").bound,
            planner.bound_two(&WEIGHTS, &[0; 3]).expect("a bound").bound,
            written.bound,
        ];
        (bounds, plan.kinds.contains(&4), exact.widths)
    };
    assert_eq!(bounds(upright), ([16, 14, 16, 16], false, 4));
    assert_eq!(bounds(turning), ([18, 18, 18, 18], true, 4));
}

#[test]
fn demands_may_count_in_full() {
    let mut job = job_s();
    job.kinds[1].demand = 200;
    let capacity = |full_demand| {
        let choices = Choices { full_demand, ..Choices::default() };
        Planner::new(&job, choices, AMPLE).bound(&WEIGHTS).expect("a bound").capacity
    };
    assert_eq!((capacity(false), capacity(true)), (3, 200));
}

#[test]
fn old_blocks_have_no_kerf() {
    let job = Job { kerf: 1, ..job_s() };
    let bound = |old_block| {
        let choices = Choices { old_block, ..Choices::default() };
        Planner::new(&job, choices, AMPLE).bound(&WEIGHTS).expect("a bound").bound
    };
    assert_eq!((bound(true), bound(false)), (16, 14));
}
