// What the verdict says, of one board and of whole orders, at true sizes.
use crate::scratch::{shop, Scratch};
use shop::json::Value;

const BEST: &str = "best: no guillotine plan of this board cuts panels worth more";

fn says(name: &str, order: &str, words: &[&str], sentence: &str) {
    let scratch = Scratch::new(name);
    let summary = scratch.planned(order, words);
    assert!(summary.contains(&format!("\n{sentence}\n")), "{summary}");
    assert_eq!(scratch.document().get("verdict"), Some(&Value::text(sentence)));
    assert!(scratch.drawings().iter().all(|drawing| drawing.contains(sentence)));
    assert!(!summary.contains("round"), "{summary}");
}

#[test]
fn true_sizes_leave_nothing_to_rounding() {
    let felt = "plate, 2400 x 1200\nsaw, kerf 0.5\nname, length, width, count\ntile, 299.5, 299.5, 50\n";
    says("felt", felt, &["--one"], BEST);
    let backs = "plate, 2440 x 1220\nsaw, kerf 3.2\nname, length, width, count\nback, 607, 402, 20\n";
    says("backs", backs, &["--one"], BEST);
    let five = "plate, 2440 x 100\nsaw, kerf 3.2, unit 5\nname, length, width, count\na, 485, 100, 5\n";
    says("five", five, &["--one"], BEST);
    for (file, copies) in [("felt", "tile     299.5 x 299.5   32"), ("backs", "back         607 x 402   12")]
    {
        let order = if file == "felt" { felt } else { backs };
        let scratch = Scratch::new("copies");
        let summary = scratch.planned(order, &["--one"]);
        assert!(summary.contains(copies), "{summary}");
    }
}

#[test]
fn whole_orders_are_proved() {
    let trap = "plate, 2440 x 1220\nsaw, kerf 3.2\nname, length, width, count\n\
                door, 1300, 1200, 3\nside, 810, 1200, 3\nfiller, 315, 1200, 3\n";
    says("trap", trap, &[], "3 boards: no plan needs fewer");
    let tiles = "plate, 2400 x 1200\nsaw, kerf 0.5\nname, length, width, count\ntile, 299.5, 299.5, 200\n";
    says("tiles", tiles, &[], "7 boards: no plan needs fewer");
    let one = "plate, 100 x 100\nsaw, kerf 1\nname, length, width, count\na, 100, 100, 1\n";
    says("single", one, &[], "1 board: no plan needs fewer");
}

#[test]
fn what_more_is_possible_is_said() {
    let scratch = Scratch::new("gap");
    let order = "plate, 2440 x 100\nsaw, kerf 3.2\nname, length, width, count\na, 485, 100, 5\n";
    let order = scratch.write("order.csv", order);
    for (plan, sentence) in [
        ("{\"piece\": \"a\"}", "at most 400.0 % more is possible"),
        ("{\"waste\": true}", "nothing is cut, and something could be"),
    ] {
        let plan = scratch.write("plan.json", plan);
        let judged = shop(&["check", &order, &plan]).expect("a plan of the order");
        assert!(judged.contains(&format!("\n{sentence}\n")), "{judged}");
    }
}

#[test]
fn the_same_order_gets_the_same_plan() {
    let order = "plate, 1000 x 800\nsaw, kerf 3.2\nturning, yes\nname, length, width, count\n\
                 a, 410, 333.3, 3\nb, 277, 190, 4\nc, 605.5, 122, 3\nd, 91, 90, 6\n";
    let scratch = Scratch::new("same");
    let first = scratch.planned(order, &[]);
    assert_eq!(first, scratch.planned(order, &[]));
}
