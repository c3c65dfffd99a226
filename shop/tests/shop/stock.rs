// Stock: several sizes with costs, offcuts, limited numbers, trimmed edges and stages.
use crate::scratch::{shop, Scratch};
use shop::json::{read, Value};

const PANELS: &str = "name, length, width, count\na, 400, 300, 6\nb, 250, 200, 5\n";

#[test]
fn offcuts_are_used_first_and_rests_become_offcuts() {
    let scratch = Scratch::new("offcuts");
    let order = format!("plate, 1000 x 700\noffcut, 420 x 310, 2\nsaw, kerf 3\n{PANELS}");
    let summary = scratch.planned(&order, &["--seconds", "1"]);
    assert_eq!(summary.matches("\noffcut ").count(), 2, "{summary}");
    let file = scratch.path("rest.csv");
    shop(&[&scratch.path("order.csv"), "--seconds", "0.5", "--rest", &file]).expect("an order without fault");
    let rest = scratch.read("rest.csv");
    assert!(rest.lines().all(|line| line.starts_with("offcut, ")), "{rest}");
    let next = scratch.write("next.csv", format!("plate, 1000 x 700\n{rest}saw, kerf 3\n{PANELS}"));
    shop(&[&next, "--seconds", "0.5"]).expect("rests are lines of an order");
}

#[test]
fn the_cheaper_boards_are_taken() {
    let scratch = Scratch::new("costs");
    let head = "plate, 1000 x 700, cost 100\nplate, 500 x 400, cost 20\nsaw, kerf 3\n";
    let order = format!("{head}name, length, width, count\na, 400, 300, 3\n");
    let summary = scratch.planned(&order, &["--seconds", "1"]);
    assert!(summary.contains("3 boards for 60: no plan costs less"), "{summary}");
    assert_eq!(scratch.document().get("cost"), Some(&Value::number(60)));
}

#[test]
fn a_panel_goes_to_the_plate_that_it_fits() {
    let scratch = Scratch::new("fits");
    let order = "plate, 500 x 400\nplate, 1000 x 200\nsaw, kerf 3\nname, length, width, count\n\
                 long, 900, 150, 2\nwide, 450, 380, 1\n";
    let summary = scratch.planned(order, &["--seconds", "1"]);
    assert!(summary.contains("3 boards: no plan needs fewer"), "{summary}");
}

#[test]
fn stock_that_does_not_suffice_is_named() {
    let scratch = Scratch::new("short");
    let order = "plate, 500 x 400, 2\nsaw, kerf 3\nname, length, width, count\na, 400, 300, 5\n";
    let summary = scratch.planned(order, &["--seconds", "0.5"]);
    assert!(summary.contains("the stock does not suffice: 3 panels are left over"), "{summary}");
    assert_eq!(scratch.document().get("left_over"), Some(&Value::number(3)));
}

#[test]
fn raw_edges_are_trimmed_first() {
    let scratch = Scratch::new("trim");
    let order = "plate, 520 x 420\ntrim, 10\nsaw, kerf 3\nname, length, width, count\na, 500, 400, 2\n";
    let summary = scratch.planned(order, &[]);
    assert!(summary.contains("2 boards: no plan needs fewer"), "{summary}");
    let list: Vec<&str> = summary.lines().filter(|line| line.starts_with("   ")).collect();
    assert!(list[0].contains("length at 7") && list[1].contains("length at 500"), "{summary}");
    assert!(list[2].contains("width at 7") && list[3].contains("width at 400"), "{summary}");
    let fault =
        shop(&[&scratch.write("fault.csv", order.replace("520", "519"))]).expect_err("a panel too long");
    assert!(fault.contains("a panel that fits a plate of 499 x 400"), "{fault}");
}

fn stages(node: &Value, above: Option<&str>) -> u32 {
    let Some(Value::Text(cut)) = node.get("cut") else {
        return 0;
    };
    let below = |part: &str| node.get(part).map_or(0, |node| stages(node, Some(cut)));
    u32::from(above != Some(cut)) + below("first").max(below("second"))
}

#[test]
fn stages_are_limited() {
    let scratch = Scratch::new("stages");
    let panels = "name, length, width, count\na, 410, 333, 4\nb, 277, 190, 6\nc, 605, 122, 5\nd, 91, 90, 9\n";
    for limit in 2..=4 {
        let order = format!("plate, 1000 x 800\nstages, {limit}\nsaw, kerf 3.2\nturning, yes\n{panels}");
        scratch.planned(&order, &["--seconds", "1"]);
        let document = read(&scratch.read("plan.json")).expect("JSON");
        let Some(Value::List(boards)) = document.get("boards") else { panic!("no boards") };
        for board in boards {
            let plan = board.get("plan").expect("a plan");
            assert!(stages(plan, None) <= limit, "{limit}: {plan}");
        }
    }
}

#[test]
fn more_boards_than_a_rack_has_are_judged() {
    let scratch = Scratch::new("racks");
    let order = "plate, 100 x 100\nsaw, kerf 3\nname, length, width, count\na, 90, 80, 40\nb, 90, 10, 9\n";
    let summary = scratch.planned(order, &["--seconds", "1"]);
    assert!(summary.contains("40 boards: no plan needs fewer"), "{summary}");
}

#[test]
fn raw_edges_and_stages_are_checked() {
    let scratch = Scratch::new("edges");
    let head = "plate, 520 x 420\ntrim, 10\nsaw, kerf 3\nname, length, width, count\na, 500, 400, 2\n";
    let order = scratch.write("order.csv", head);
    let plan = scratch.write("plan.json", "{\"piece\": \"a\"}");
    let wrong = shop(&["check", &order, &plan]).expect_err("a panel on the edge");
    assert!(wrong.contains("a lies on a raw edge"), "{wrong}");
    let order = scratch.write("order.csv", head.replace("trim, 10", "stages, 1"));
    let wrong = shop(&["check", &order, &plan]).expect_err("two stages");
    assert!(wrong.contains("a plan has more stages than 1"), "{wrong}");
}
