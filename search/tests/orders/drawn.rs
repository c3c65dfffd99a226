// Plans that somebody has drawn: what the saw cannot do and what the order does not allow is refused by what it is.
use crate::{at_once, mm, order};
use planner_search::plan::{Direction, Tree};
use planner_search::{judge_plans, Error, Filed, Order, Outcome};

fn judged(order: Order, trees: Vec<Tree>) -> Result<Outcome, Error> {
    let boards = trees.into_iter().map(|tree| (0, tree)).collect();
    judge_plans(order, Filed { boards, one: false, evidence: vec![] }, at_once())
}

fn cut(at: u32, first: Tree, second: Tree) -> Tree {
    Tree::cut(Direction::Length, 1_000 * at, first, Some(second))
}

const WIDE: Tree = Tree::Panel { panel: 0, turned: false };
const HIGH: Tree = Tree::Panel { panel: 1, turned: false };

/// A row of two panels, sawn to their sizes.
fn row() -> Tree {
    cut(40, WIDE, cut(10, HIGH, Tree::Rest))
}

#[test]
fn drawn_plans_are_sawn_to_size() {
    let outcome = judged(order(), vec![row()]).expect("a plan");
    assert_eq!(outcome.copies(), [1, 1]);
    assert_eq!(outcome.verdict.sentence(), "3 panels are not cut");
    let laid = outcome.boards[0].layout.panels[1].rect;
    assert_eq!((laid.x, laid.y, laid.length, laid.width), (41_000, 0, 10_000, 30_000));
}

#[test]
fn what_the_saw_cannot_do_is_refused() {
    let refused = |tree: Tree| judged(order(), vec![tree]).expect_err("a misfit");
    let off = refused(cut(100, WIDE, HIGH));
    assert!(matches!(&off, Error::Misfit { misfit, .. } if misfit.node == 0), "{off:?}");
    assert_eq!(off.to_string(), "node 0, the cut of the length at 100: it is not within the side of 100");
    let small = refused(cut(9, HIGH, WIDE));
    assert_eq!(small.to_string(), "node 1, high: a panel of 10 x 30 does not fit a part of 9 x 50");
    assert_eq!(refused(Tree::Panel { panel: 2, turned: false }), Error::NoPanel(2));
    let elsewhere = Filed { boards: vec![(1, WIDE)], one: true, evidence: vec![] };
    assert_eq!(judge_plans(order(), elsewhere, at_once()).expect_err("no such plate"), Error::NoPlate(1));
}

#[test]
fn what_the_order_does_not_allow_is_refused() {
    let refused = |order: Order, trees: Vec<Tree>| judged(order, trees).expect_err("not allowed");
    let panel = |name: &str| name.to_string();
    let twice = refused(order(), vec![row(), row()]);
    assert_eq!(twice, Error::Copies { panel: panel("high"), cut: 2, ordered: 1 });
    let turned = refused(order(), vec![Tree::Panel { panel: 0, turned: true }]);
    assert_eq!(turned, Error::Turned { panel: panel("wide") });
    let edge = refused(Order { trim: mm(5), ..order() }, vec![WIDE]);
    assert_eq!(edge, Error::RawEdge { panel: panel("wide") });
    assert_eq!(refused(Order { stages: Some(1), ..order() }, vec![row()]), Error::Stages(1));
    let mut one = order();
    one.plates[0].count = Some(1);
    let plates = refused(one, vec![WIDE, WIDE]);
    assert_eq!(plates, Error::Plates { sides: [100_000, 50_000], used: 2, count: 1 });
}
