// The library's calls on small orders: plans in one call, faults of an order, and plans that somebody has drawn.
mod drawn;
mod faults;
mod planned;

use planner_search::{Limits, Millimetres, Order, Panel, Plate};
use std::time::Duration;

fn mm(length: u32) -> Millimetres {
    Millimetres::of_thousandths(1_000 * length)
}

fn panel(name: &str, length: u32, width: u32, count: u32) -> Panel {
    Panel::new(name, mm(length), mm(width), count)
}

/// A plate 100 by 50, a blade of 1, four panels 40 by 20 and one 10 by 30.
fn order() -> Order {
    let panels = vec![panel("wide", 40, 20, 4), panel("high", 10, 30, 1)];
    Order { plates: vec![Plate::new(mm(100), mm(50))], kerf: mm(1), panels, ..Order::default() }
}

/// No search beside what is given.
fn at_once() -> Limits {
    Limits { seconds: Some(Duration::ZERO), ..Limits::default() }
}
