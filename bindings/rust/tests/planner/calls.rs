// What each call answers on job S, and one refusal of each with its place.
use crate::{across, along, best, first_nodes, job_s, piece, planner, AMPLE, WEIGHTS};
use planner::answers::{Bound, BoundTwo, Certificate, Exact, Refusal, Report};
use planner::{Choices, Ended, Error, FoundWeights, Job, Planner, Plate, Tree};

fn refused<A>(number: u32, place: u64) -> Result<A, Error> {
    Err(Error::Refused(Refusal { number, place }))
}

/// What the best tree reports: pieces of 6, 3 and 4, and the strip above the last.
fn best_report() -> Report {
    let mut copies = [0; 64];
    copies[..3].copy_from_slice(&[1; 3]);
    Report { profit: 16, pieces: 13, waste: 0, trim: 2, copies, sawdust: 0 }
}

#[test]
fn plans_are_checked() {
    let plan = best().plan();
    assert_eq!(planner(0).check(&plan), Ok(best_report()));
    assert_eq!(planner(0).check(&first_nodes(&plan, 3)), refused(17, 3));
    assert_eq!(planner(0).check_block(&plan.block()), Ok(best_report()));
    assert_eq!(planner(0).check_block(&plan.block()[1..]), refused(10, 0));
}

#[test]
fn stages_are_checked() {
    let within = planner(0).check_staged(2, &best().plan()).expect("two stages");
    assert_eq!((within.report, within.stages), (best_report(), 2));
    assert_eq!(planner(0).check_staged(1, &best().plan()), refused(23, 2));
    assert_eq!(planner(0).check_staged(9, &best().plan()), refused(22, 0));
}

#[test]
fn racks_are_checked() {
    let plate = |length, width, tree| Plate { length, width, tree };
    let rack = |width, second| planner(0).check_rack(&[plate(5, 3, best()), plate(3, width, second)]);
    assert_eq!(rack(2, across(1, piece(1), Tree::Waste)), Ok(vec![16, 4]));
    assert_eq!(rack(2, piece(2)), refused(29, 1));
    assert_eq!(rack(2, across(1, Tree::Waste, Tree::Waste)), refused(26, 5));
    assert_eq!(rack(0, Tree::Waste), refused(2, 1));
    assert_eq!(planner(0).check_rack(&[]), refused(28, 0));
    let own = Planner::new(&Job { length: 0, ..job_s() }, Choices::default(), 0);
    assert_eq!(own.check_rack(&[plate(5, 3, best())]), Ok(vec![16]));
}

#[test]
fn the_saw_reads_no_price() {
    let mut job = job_s();
    job.kinds[1].price = u32::MAX;
    let planner = Planner::new(&job, Choices::default(), 0);
    let plan = best().plan();
    assert_eq!(planner.check(&plan), refused(6, 1));
    let report = planner.check_at_saw(&plan).expect("no price is read");
    assert_eq!((report.pieces, report.waste, report.trim, report.sawdust), (13, 0, 2, 0));
    assert_eq!(report.copies, best_report().copies);
    assert_eq!(planner.check_at_saw(&first_nodes(&plan, 3)), refused(17, 3));
    for (node, tree) in best().nodes().into_iter().enumerate() {
        assert_eq!(planner.tree_at_saw(&plan, node as u64), Ok(Some(tree.clone())));
    }
    assert_eq!(planner.tree_at_saw(&plan, 5), Ok(None));
    assert_eq!(planner.tree_at_saw(&first_nodes(&plan, 3), 1), Ok(None));
    let unknown = Planner::of_block(job.block(Choices::default()), 16, 0);
    assert_eq!(unknown.tree_at_saw(&plan, 0), refused(101, 0));
}

#[test]
fn plans_become_neat() {
    let wide = along(3, piece(0), piece(2)).plan();
    let neat = along(2, piece(0), piece(2));
    assert_eq!(planner(0).neat(&wide).expect("a plan of S").tree(), Some(neat));
    assert_eq!(planner(0).neat(&first_nodes(&wide, 2)), refused(17, 2));
}

#[test]
fn bounds_are_given() {
    let planner = &mut planner(AMPLE);
    let bound = |bound, capacity| Ok(Bound { bound, capacity, lengths: 5, widths: 4 });
    assert_eq!(planner.bound(&[0; 3]), bound(19, 0));
    assert_eq!(planner.bound(&WEIGHTS), bound(16, 2));
    assert_eq!(planner.bound(&[0; 2]), refused(8, 0));
    assert_eq!(planner.bound_staged(&WEIGHTS, 1), bound(14, 2));
    assert_eq!(planner.bound_staged(&WEIGHTS, 2), bound(16, 2));
    assert_eq!(planner.bound_staged(&WEIGHTS, 9), refused(22, 0));
    let both = Ok(BoundTwo { bound: 16, capacities: [2, 1], lengths: 5, widths: 4 });
    assert_eq!(planner.bound_two(&WEIGHTS, &[0, 0, 1]), both);
    assert_eq!(planner.bound_two(&WEIGHTS, &[0; 4]), refused(24, 0));
}

#[test]
fn plans_are_written() {
    let planner = &mut planner(AMPLE);
    let (bound, plan) = planner.write_plan(&WEIGHTS).expect("a plan of S");
    assert_eq!((bound.bound, bound.capacity, plan.tree()), (16, 2, Some(best())));
    assert_eq!(planner.write_plan(&[0; 4]), refused(8, 0));
    let (exact, plan) = planner.exact().expect("a short order");
    assert_eq!(exact, Exact { optimum: 16, states: 12, lengths: 5, widths: 4, nodes: 5 });
    assert_eq!(plan.tree(), Some(best()));
    let mut long = job_s();
    long.kinds.iter_mut().for_each(|kind| kind.demand = 15);
    assert_eq!(Planner::new(&long, Choices::default(), 0).exact(), Err(Error::Memory(20 * 4096)));
    long.kinds[2].demand = 16;
    assert_eq!(Planner::new(&long, Choices::default(), 0).exact(), refused(30, 0));
}

#[test]
fn plans_are_certified() {
    let planner = &mut planner(AMPLE);
    let sixteen = Ok(Certificate { gap: 0, bound: 16, profit: 16 });
    assert_eq!(planner.certify(&WEIGHTS, &best().plan()), sixteen);
    let one = along(2, piece(0), Tree::Waste).plan();
    assert_eq!(planner.certify(&WEIGHTS, &one), Ok(Certificate { gap: 9, bound: 16, profit: 7 }));
    assert_eq!(planner.certify(&WEIGHTS, &piece(3).plan()), refused(13, 0));
    assert_eq!(planner.certify_staged(&WEIGHTS, 2, &best().plan()), sixteen);
    let within_one = Ok(Certificate { gap: 7, bound: 14, profit: 7 });
    assert_eq!(planner.certify_staged(&WEIGHTS, 1, &one), within_one);
    assert_eq!(planner.certify_staged(&WEIGHTS, 1, &best().plan()), refused(23, 2));
}

#[test]
fn weights_are_found() {
    let planner = &mut planner(AMPLE);
    let found = |weights: [u8; 3]| FoundWeights {
        bound: 16,
        rounds: 2,
        weights: weights.into(),
        ended: Ended::Demands,
    };
    assert_eq!(planner.find_weights(&best().plan()), Ok(found([0, 1, 0])));
    assert_eq!(planner.bound(&[0, 1, 0]).expect("a bound").bound, 16);
    assert_eq!(planner.find_weights(&Tree::Waste.plan()), Ok(found([0, 4, 0])));
    assert_eq!(planner.find_weights(&piece(3).plan()), refused(13, 0));
}
