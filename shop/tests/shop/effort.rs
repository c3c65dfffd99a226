// What planning may take: a time is kept whatever the order, more time is never worse, and short orders are solved
// exactly.
use crate::scratch::{shop, Scratch};
use std::fmt::Write;
use std::time::{Duration, Instant};

const BEST: &str = "best: no guillotine plan of this board cuts panels worth more";

/// Orders whose demands, each plus one, multiply to no more than the exact call takes.
const SHORT: [&str; 3] = [
    "plate, 15 x 10\n\
     saw, kerf 0\n\
     turning, no\n\
     name, length, width, count, price\n\
     p1, 8, 4, 1, 66\n\
     p2, 3, 7, 2, 35\n\
     p3, 8, 2, 3, 24\n\
     p4, 3, 4, 5, 17\n\
     p5, 3, 3, 2, 11\n\
     p6, 3, 2, 2, 8\n\
     p7, 2, 1, 1, 2\n",
    "plate, 2440 x 1220\n\
     saw, kerf 3.2\n\
     turning, yes\n\
     name, length, width, count\n\
     p1, 767, 316.5, 3\n\
     p2, 700.4, 411.4, 3\n\
     p3, 262.5, 526.9, 3\n\
     p4, 773.2, 236.3, 2\n\
     p5, 696.8, 526.4, 3\n",
    "plate, 2440 x 1220\n\
     saw, kerf 3.2\n\
     turning, yes\n\
     name, length, width, count\n\
     p1, 910.8, 464.4, 3\n\
     p2, 1166.4, 557.1, 2\n\
     p3, 348.9, 445, 3\n\
     p4, 1040, 408.1, 3\n\
     p5, 368.2, 366.9, 2\n\
     p6, 1190.3, 189.8, 3\n",
];

/// What is left of them at most, in per cent: none on an exact model, else what the model is too large.
const LEFT: [f64; 3] = [0.0, 0.2, 0.2];

/// What a plan with a time of a second may take on a machine that does much else.
const LATE: Duration = Duration::from_secs(20);

/// An order of one price for each panel, or none, with sides that follow no rule.
fn order(plate: &str, kinds: u64, sides: [u64; 2], count: u64, price: Option<u64>) -> String {
    let mut text = format!("plate, {plate}\nsaw, kerf 0\nname, length, width, count, price\n");
    for kind in 0..kinds {
        let side = |factor: u64| sides[0] + kind * factor % (sides[1] - sides[0] + 1);
        let price = price.map_or(String::new(), |most| (1 + kind * 389 % most).to_string());
        writeln!(text, "p{kind}, {}, {}, {count}, {price}", side(7), side(11))
            .expect("a string takes all text");
    }
    text
}

/// Per cent that are possible at most beside the plan, as the summary says.
fn gap(summary: &str) -> f64 {
    let line = summary.lines().find(|line| *line == BEST || line.starts_with("at most "));
    match line.expect("a verdict") {
        BEST => 0.0,
        line => line.split(' ').nth(2).and_then(|number| number.parse().ok()).expect("per cent"),
    }
}

#[test]
fn a_time_is_kept() {
    let scratch = Scratch::new("time");
    let prices_out_of_step = order("60 x 60", 20, [4, 25], 12, Some(1000));
    let tiny = order("1200 x 800", 20, [10, 40], 150, None);
    for (order, most) in [(prices_out_of_step, 20.0), (tiny, 70.0)] {
        let file = scratch.write("order.csv", order);
        let start = Instant::now();
        let summary = shop(&[&file, "--one", "--seconds", "1"]).expect("an order without fault");
        assert!(start.elapsed() < LATE, "{:?}", start.elapsed());
        assert!(gap(&summary) < most, "{summary}");
    }
}

#[test]
fn more_time_is_never_worse() {
    let scratch = Scratch::new("more-time");
    let file = scratch.write("order.csv", order("2440 x 1220", 30, [90, 700], 3, None));
    let gaps = ["0.3", "3"]
        .map(|seconds| gap(&shop(&[&file, "--one", "--seconds", seconds]).expect("an order without fault")));
    assert!(gaps[1] <= gaps[0], "{gaps:?}");
}

#[test]
fn short_orders_are_solved_exactly() {
    let scratch = Scratch::new("short");
    for (order, left) in SHORT.into_iter().zip(LEFT) {
        let summary = scratch.planned(order, &["--one"]);
        assert!(gap(&summary) <= left, "{order}\n{summary}");
        assert_eq!(summary, scratch.planned(order, &["--one"]), "the same order gets the same plan");
    }
}
