// Every fault of an order is refused before the search, by what it is, and in words that name it.
use crate::{mm, order, panel};
use planner_search::{
    judge_plans, plan_board, plan_order, Error, Filed, Limits, Order, OrderFault, Progress,
};

fn fault(order: &Order) -> (OrderFault, String) {
    let calls = [
        plan_order(order.clone(), Limits::default(), &Progress::none()),
        plan_board(order.clone(), Limits::default(), &Progress::none()),
        judge_plans(order.clone(), Filed { boards: vec![], one: false, evidence: vec![] }, Limits::default()),
    ];
    let faults = calls.map(|call| match call {
        Err(Error::Order { fault, words }) => (fault, words),
        other => panic!("{other:?}"),
    });
    assert!(faults.iter().all(|fault| *fault == faults[0]));
    faults[0].clone()
}

#[test]
fn faults_are_named() {
    let changed = |change: fn(&mut Order)| {
        let mut order = order();
        change(&mut order);
        fault(&order)
    };
    let expect = |found: (OrderFault, String), wanted: OrderFault, words: &str| {
        assert_eq!(found, (wanted, words.to_string()));
    };
    expect(changed(|order| order.plates.clear()), OrderFault::NoPlate, "the order has no plate");
    let plate = "plate 0 has no size or no cost that can be planned: 100 x 50";
    expect(changed(|order| order.plates[0].cost = 0), OrderFault::Plate(0), plate);
    let kerf = "the kerf is 1001 mm, and at most 1000 mm is planned";
    expect(changed(|order| order.kerf = mm(1_001)), OrderFault::Kerf(mm(1_001)), kerf);
    let trim = "the trim of 1 mm is no wider than the kerf";
    expect(changed(|order| order.trim = mm(1)), OrderFault::Trim(mm(1)), trim);
    expect(changed(|order| order.stages = Some(9)), OrderFault::Stages(9), "9 stages are not 1 to 8");
    expect(changed(|order| order.stages = Some(0)), OrderFault::Stages(0), "0 stages are not 1 to 8");
    let high = "panel 1 fits no plate: high, 10 x 51";
    expect(changed(|order| order.panels[1].sides[1] = mm(51)), OrderFault::Panel(1), high);
    let none = "panel 0 fits no plate: wide, 0 x 20";
    expect(changed(|order| order.panels[0].sides[0] = mm(0)), OrderFault::Panel(0), none);
    let panels = "20001 panels, and at most 20000 are planned";
    expect(changed(|order| order.panels[0].count = 20_000), OrderFault::Panels(20_001), panels);
}

#[test]
fn sizes_are_counted() {
    let sizes = |sizes: u32| {
        let panels = (0..sizes).map(|size| panel("one", 1 + size % 90, 1 + size / 90, 1)).collect();
        Order { panels, ..order() }
    };
    assert_eq!(sizes(1_000).check(), Ok(()));
    assert_eq!(fault(&sizes(1_001)).0, OrderFault::Sizes(1_001));
}

#[test]
fn panels_that_turn_fit_where_others_do_not() {
    let mut turned = Order { panels: vec![panel("long", 50, 100, 1)], ..order() };
    assert_eq!(turned.check(), Err(OrderFault::Panel(0)));
    turned.panels[0].turns = true;
    assert_eq!(turned.check(), Ok(()));
    turned.trim = mm(2);
    assert_eq!(turned.check(), Err(OrderFault::Panel(0)));
}
