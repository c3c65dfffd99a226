// Orders that are planned in one call: whole ones and single boards, the same plan each time, who is told, orders of many
// sizes and of very many panels, on a thread with a small stack.
use crate::{mm, order, panel};
use planner_search::{plan_board, plan_order, Limits, Order, Outcome, Plate, Progress, Seen};
use std::sync::atomic::{AtomicUsize, Ordering};
use std::sync::Arc;
use std::thread;

fn planned(order: Order) -> Outcome {
    plan_order(order, Limits::default(), &Progress::none()).expect("a plan")
}

#[test]
fn whole_orders_are_planned() {
    let outcome = planned(order());
    assert_eq!(outcome.verdict.sentence(), "1 board: no plan needs fewer");
    assert_eq!((outcome.copies(), outcome.boards.len()), (vec![4, 1], 1));
    let again = planned(order());
    assert_eq!(outcome.boards[0].tree, again.boards[0].tree);
}

#[test]
fn the_most_is_made_of_one_board() {
    let mut order = order();
    order.panels[0].count = 9;
    let outcome = plan_board(order, Limits::default(), &Progress::none()).expect("a plan");
    assert!(outcome.one && outcome.verdict.is_best(), "{:?}", outcome.verdict);
    assert_eq!(outcome.copies(), [4, 1]);
}

#[test]
fn an_empty_order_needs_no_board() {
    let outcome = planned(Order { panels: Vec::new(), ..order() });
    assert_eq!(outcome.verdict.sentence(), "0 boards: no plan needs fewer");
}

#[test]
fn somebody_is_told() {
    let told = Arc::new(AtomicUsize::new(0));
    let counted = told.clone();
    let progress = Progress::new(move |seen, _| {
        assert!(matches!(seen, Seen::Cost { boards: 1.., .. }), "{seen:?}");
        counted.fetch_add(1, Ordering::Relaxed);
    });
    plan_order(order(), Limits::default(), &progress).expect("a plan");
    assert!(told.load(Ordering::Relaxed) > 0);
}

/// A hundred sizes, each once or twice: more than a job has kinds.
#[test]
fn more_sizes_than_a_job_has_kinds_are_planned() {
    let one = |size: u32| panel("one", 200 + 7 * (size % 10), 150 + 5 * (size / 10), 1 + size % 2);
    let panels: Vec<_> = (0..100).map(one).collect();
    let ordered: Vec<u32> = panels.iter().map(|panel| panel.count).collect();
    let plates = vec![Plate::new(mm(2_440), mm(1_220))];
    let limits = Limits { seconds: Some(std::time::Duration::from_secs(5)), ..Limits::default() };
    let order = Order { plates, kerf: mm(3), panels, ..Order::default() };
    let outcome = plan_order(order, limits, &Progress::none()).expect("a plan");
    assert_eq!(outcome.copies(), ordered);
    println!("a hundred sizes: {}", outcome.verdict.sentence());
    assert!(outcome.boards.len() <= 3, "{}", outcome.verdict.sentence());
}

/// Panels in one row make a plan as deep as there are panels; it is made, walked and given back on a small stack.
#[test]
fn deep_plans_need_no_deep_stack() {
    let order = Order {
        plates: vec![Plate::new(mm(99_000), mm(20))],
        panels: vec![panel("slat", 10, 20, 6_000)],
        ..Order::default()
    };
    let limits = Limits { seconds: Some(std::time::Duration::from_secs(2)), ..Limits::default() };
    let plan = move || {
        let outcome = plan_order(order, limits, &Progress::none()).expect("a plan");
        assert_eq!(outcome.copies(), [6_000]);
        assert!(outcome.boards[0].tree.panels().len() > 5_000);
    };
    let small = thread::Builder::new().stack_size(256 << 10).spawn(plan);
    small.expect("a thread").join().expect("no overflow");
}
