// An order as the text that it is read from: for stamps.
use super::Order;
use crate::csv::quoted;
use crate::layout::size;
use std::fmt::Write;

/// A text from which the same order is read.
pub fn text(order: &Order) -> String {
    let mut text = String::new();
    let mut line = |line: String| writeln!(text, "{line}").expect("a string takes all text");
    for plate in &order.plates {
        let count = plate.count.map_or(String::new(), |count| format!(", {count}"));
        let cost = if plate.offcut { String::new() } else { format!(", cost {}", plate.cost) };
        let word = if plate.offcut { "offcut" } else { "plate" };
        line(format!("{word}, {}{count}{cost}", size(plate.sides())));
    }
    line(format!("saw, kerf {}", order.kerf));
    if order.trim.thousandths() > 0 {
        line(format!("trim, {}", order.trim));
    }
    if let Some(stages) = order.stages {
        line(format!("stages, {stages}"));
    }
    line("name, length, width, count, price, turn".to_string());
    for panel in &order.panels {
        let price = panel.price.map_or(String::new(), |price| price.to_string());
        let turn = if panel.turns { "yes" } else { "no" };
        let [length, width] = panel.sides;
        line(format!("{}, {length}, {width}, {}, {price}, {turn}", quoted(&panel.name), panel.count));
    }
    text
}
