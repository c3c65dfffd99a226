// Generated orders on small plates: every plan can be cut, every "best" is what an exhaustive search finds, and no
// bound lies on the wrong side of it. Lengths are whole multiples of a step of tenths of a millimetre, so that the
// exhaustive search sees every cut that matters.
use crate::exhaustive::{Panel, Small};
use crate::scratch::{shop, Scratch};
use shop::json::Value;
use std::fmt::Write;

const ORDERS: u64 = 60;

/// Numbers that look random (a linear congruence).
struct Dice(u64);

impl Dice {
    fn from(&mut self, low: usize, high: usize) -> usize {
        self.0 = self.0.wrapping_mul(6_364_136_223_846_793_005).wrapping_add(1_442_695_040_888_963_407);
        low + (self.0 >> 33) as usize % (high - low + 1)
    }
}

/// An order file, and the same in steps. `copies` is the most of all panels together.
fn generated(seed: u64, most_kinds: usize, most_copies: usize, priced: bool) -> (String, Small) {
    let mut dice = Dice(seed.wrapping_mul(0x9E37_79B9_7F4A_7C15));
    let step = dice.from(1, 600);
    let plate = [dice.from(3, 7), dice.from(2, 6)];
    let (kerf, turning) = (dice.from(0, 1), dice.from(0, 1) == 1);
    let tenths = |steps: usize| format!("{}.{}", steps * step / 10, steps * step % 10);
    let mut text =
        format!("plate, {} x {}\nsaw, kerf {}\n", tenths(plate[0]), tenths(plate[1]), tenths(kerf));
    let turns = if turning { "yes" } else { "no" };
    writeln!(text, "turning, {turns}\nname, length, width, count, price").expect("a string takes all text");
    let mut panels: Vec<Panel> = Vec::new();
    for number in 0..dice.from(1, most_kinds) {
        let sides = plate.map(|most| dice.from(1, most));
        let left = most_copies - panels.iter().map(|panel| panel.count).sum::<usize>();
        let count = dice.from(1, 3).min(left);
        let price = if priced { dice.from(1, 20) } else { sides[0] * sides[1] };
        let cell = if priced { price.to_string() } else { String::new() };
        let [length, width] = sides.map(tenths);
        writeln!(text, "panel {number}, {length}, {width}, {count}, {cell}")
            .expect("a string takes all text");
        panels.push(Panel { sides, price: price as u64, count });
    }
    (text, Small { plate, kerf, turning, panels })
}

fn number(document: &Value, name: &str) -> u64 {
    match document.get(name) {
        Some(Value::Number(number)) => number.parse().expect("a whole number"),
        other => panic!("{name} is {other:?}"),
    }
}

fn text(document: &Value, name: &str) -> u64 {
    match document.get(name) {
        Some(Value::Text(text)) => text.parse().expect("a whole number"),
        other => panic!("{name} is {other:?}"),
    }
}

#[test]
fn one_board_is_planned_as_well_as_the_verdict_says() {
    let scratch = Scratch::new("generated-one");
    let mut best = 0;
    for seed in 1..=ORDERS {
        let (order, small) = generated(seed, 4, 8, true);
        let summary = scratch.planned(&order, &["--one", "--seconds", "0.5"]);
        let document = scratch.document();
        let (worth, ceiling) = (text(&document, "worth"), text(&document, "most_possible"));
        let most = small.most();
        assert!(worth <= most && most <= ceiling, "{worth} {most} {ceiling}\n{order}\n{summary}");
        let says_best = summary.contains("\nbest: ");
        assert_eq!(says_best, document.get("best") == Some(&Value::Truth(true)));
        assert!(!says_best || worth == most, "{worth} {most}\n{order}\n{summary}");
        no_other_plan_is_best(&scratch, most);
        best += u64::from(says_best);
    }
    println!("one board: {best} of {ORDERS} best");
    assert!(best > ORDERS * 3 / 4);
}

/// The plan that cuts nothing is best only where nothing can be cut.
fn no_other_plan_is_best(scratch: &Scratch, most: u64) {
    let evidence = scratch.document().get("evidence").cloned().unwrap_or(Value::Null);
    let waste = ("plan", Value::object([("waste", Value::Truth(true))]));
    let file = scratch.write("waste.json", Value::object([waste, ("evidence", evidence)]).to_string());
    let judged = shop(&["check", &scratch.path("order.csv"), &file, "--seconds", "0"]);
    let judged = judged.expect("a plan that cuts nothing passes");
    assert_eq!(judged.contains("\nbest: "), most == 0, "{judged}");
}

#[test]
fn whole_orders_take_as_few_boards_as_the_verdict_says() {
    let scratch = Scratch::new("generated-whole");
    let mut best = 0;
    for seed in 1..=ORDERS {
        let (order, small) = generated(1000 + seed, 3, 7, false);
        let fits = |panel: &Panel| {
            let [a, b] = panel.sides;
            a <= small.plate[0] && b <= small.plate[1]
                || small.turning && b <= small.plate[0] && a <= small.plate[1]
        };
        assert!(small.panels.iter().all(fits));
        let summary = scratch.planned(&order, &["--seconds", "0.5"]);
        let document = scratch.document();
        let fewest = small.fewest() as u64;
        let (boards, needed) = (number(&document, "boards_planned"), number(&document, "boards_needed"));
        assert!(needed <= fewest && fewest <= boards, "{needed} {fewest} {boards}\n{order}\n{summary}");
        let says_best = summary.contains("no plan needs fewer");
        assert_eq!(says_best, boards == needed, "{summary}");
        assert_eq!(boards, fewest, "{order}\n{summary}");
        best += u64::from(says_best);
    }
    println!("whole orders: {best} of {ORDERS} proved fewest");
    assert!(best > ORDERS * 3 / 4);
}
