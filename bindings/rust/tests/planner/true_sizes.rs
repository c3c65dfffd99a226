// True sizes in tenths of a millimetre and in whole ones: what a model is checked for, and plans at the
// true sizes with their positions.
use crate::{across, along, kind, piece, AMPLE};
use planner::answers::{Fitted, Passed, Refusal};
use planner::{Choices, Direction, Error, Job, Planner, Tree, TrueSizes, TrueTree};

fn refused<A>(number: u32, place: u64) -> Result<A, Error> {
    Err(Error::Refused(Refusal { number, place }))
}

fn planner(job: &Job) -> Planner {
    Planner::new(job, Choices::default(), AMPLE)
}

/// 8 by 4 unit tiles without a kerf.
fn tiles() -> Job {
    Job { length: 8, width: 4, kerf: 0, kinds: vec![kind(1, 1, 1, 32)] }
}

/// 2400 x 1200 mm, kerf 0.5 mm, tile 299.5 x 299.5 mm, in tenths.
fn felt() -> TrueSizes {
    TrueSizes { length: 24_000, width: 12_000, kerf: 5, kinds: vec![[2_995, 2_995]] }
}

/// A row of tiles cut off each after the other, and columns of such rows.
fn grid(length: u16, width: u16) -> Tree {
    let row = (1..length).fold(piece(0), |rest, _| along(1, piece(0), rest));
    (1..width).fold(row.clone(), |rest, _| across(1, row.clone(), rest))
}

#[test]
fn thirty_two_tiles_are_cut_from_the_felt() {
    let mut planner = planner(&tiles());
    assert_eq!(planner.check_model(&felt()), Ok(Passed));
    assert_eq!(planner.bound(&[0]).expect("a bound").bound, 32);
    let (fitted, plan) = planner.true_plan(&felt(), &grid(8, 4).plan()).expect("32 tiles");
    assert_eq!(fitted, Fitted { nodes: 63, length: 8 * 3_000 - 5, width: 4 * 3_000 - 5 });
    let tree = plan.tree().expect("a tree");
    let TrueTree::Cut { direction: Direction::Width, at: 2_995, first, .. } = &tree else {
        panic!("{tree:?}");
    };
    assert!(matches!(**first, TrueTree::Cut { direction: Direction::Length, at: 2_995, .. }));
}

#[test]
fn a_model_must_hold_what_the_plate_holds() {
    let seven = Job { length: 7, ..tiles() };
    assert_eq!(planner(&seven).check_model(&felt()), refused(33, 0));
    let three = Job { width: 3, ..tiles() };
    assert_eq!(planner(&three).check_model(&felt()), refused(33, 1));
    let larger = TrueSizes { kinds: vec![[2_996, 2_996]], ..felt() };
    assert_eq!(planner(&seven).check_model(&larger), Ok(Passed));
    let error = planner(&seven).check_model(&felt()).expect_err("a model too small");
    assert!(error.to_string().contains("along the length"));
}

#[test]
fn plans_must_fit_the_true_plate() {
    let plan = grid(8, 4).plan();
    let cut = |length, width| planner(&tiles()).true_plan(&TrueSizes { length, width, ..felt() }, &plan);
    assert!(cut(23_995, 11_995).is_ok());
    assert_eq!(cut(23_994, 11_994), refused(34, 0));
    assert_eq!(cut(23_995, 11_994), refused(34, 1));
    let none = TrueSizes { kinds: vec![], ..felt() };
    assert_eq!(planner(&tiles()).true_plan(&none, &plan), refused(31, 0));
    let fine = TrueSizes { kinds: vec![[1, 0]], ..felt() };
    assert_eq!(planner(&tiles()).true_plan(&fine, &plan), refused(32, 1));
    assert_eq!(planner(&tiles()).true_plan(&felt(), &piece(1).plan()), refused(13, 0));
}
