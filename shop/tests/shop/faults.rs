// Orders with every fault: each names its line and column and what was expected, and nothing is written.
use crate::scratch::Scratch;
use shop::order::read;
use std::path::Path;

const PLATE: &str = "plate, 2440 x 1220\n";
const HEAD: &str = "plate, 2440 x 1220\nname, length, width, count, price\n";

/// Expects the first fault of an order at a place.
fn fault(text: &str, line: usize, column: usize, expected: &str) {
    let faults = read(text.as_bytes(), None).expect_err(text);
    let first = &faults[0];
    assert_eq!((first.line, first.column), (line, column), "{first}\n{text}");
    assert!(first.expected.contains(expected), "{first}\n{text}");
}

/// Expects it in the first line after the plate.
fn after_plate(line: &str, column: usize, expected: &str) {
    fault(&format!("{PLATE}{line}\n"), 2, column, expected);
}

/// Expects it in the line of a panel.
fn panel(line: &str, column: usize, expected: &str) {
    fault(&format!("{HEAD}a, 1, 1, 1\n{line}\n"), 4, column, expected);
}

#[test]
fn something_is_missing() {
    fault("", 1, 1, "a line plate");
    fault("# only a comment\n", 2, 1, "a line plate");
    fault("name, length, width, count\na, 1, 1, 1\n", 3, 1, "a line plate");
    fault(PLATE, 2, 1, "a heading");
    fault(HEAD, 3, 1, "a line for each panel");
}

#[test]
fn lines_before_the_heading() {
    fault("table, 1 x 1", 1, 1, "saw, turning or the heading");
    fault("plate", 1, 6, "LENGTH x WIDTH");
    for plate in ["2440", "2440 1220", "2440 x", "x 5", "0 x 5", "5 x 0", "-5 x 5", "a x b", "1 x 2 x 3"] {
        fault(&format!("plate, {plate}"), 1, 8, "LENGTH x WIDTH");
    }
    fault("plate, 5 x 5, some", 1, 15, "how many there are");
    fault("plate, 5 x 5, 7, 8", 1, 18, "not said before");
    fault("plate, 5 x 5, cost x", 1, 15, "a cost");
    after_plate("offcut, 5", 9, "LENGTH x WIDTH");
    after_plate("trim, 0", 7, "a width in millimetres");
    after_plate("stages, 9", 9, "from 1 to 8");
    after_plate("saw, kerf", 6, "kerf or unit");
    after_plate("saw, kerf x", 6, "kerf or unit");
    after_plate("saw, kerf 3.2, blade 3", 16, "kerf or unit");
    after_plate("saw, unit 0", 6, "a unit above 0");
    after_plate("saw, kerf 3, kerf 3", 14, "not said before");
    after_plate("saw, unit 5, unit 5", 14, "not said before");
    after_plate("turning", 8, "yes or no");
    after_plate("turning, perhaps", 10, "yes or no");
    after_plate("turning, yes, no", 15, "the line's end");
    fault("turning, yes\nturning, yes\n", 2, 1, "not said before");
}

#[test]
fn headings() {
    after_plate("name, length, width, number", 28, "a column count beside those that are not read, number");
    after_plate("name, length, length, count", 15, "not said before");
    after_plate("name, length, width", 20, "a column count");
    after_plate("name, length", 13, "a column width");
    after_plate("name", 5, "a column length");
    let skipped = format!("{PLATE}name, length\na, 1\n");
    assert_eq!(read(skipped.as_bytes(), None).expect_err("two columns are missing").len(), 1);
}

#[test]
fn panels() {
    panel(", 1, 1, 1", 1, "a name");
    panel("b", 2, "a length");
    panel("b, 1", 5, "a length");
    panel("b, 1, 1", 8, "a count");
    for length in ["", "x", "0", "-1", "1.2345", "1.", ".5", "1e3", "99999999", "1 2"] {
        panel(&format!("b, {length}, 1, 1"), 4, "a length");
        panel(&format!("b, 1, {length}, 1"), 7, "a length");
    }
    for count in ["", "10001", "-1", "1.5", "x"] {
        panel(&format!("b, 1, 1, {count}, 5"), 10, "a count");
    }
    for price in ["1000001", "-1", "1.5", "x"] {
        panel(&format!("b, 1, 1, 1, {price}"), 13, "a price");
    }
    panel("b, 1, 1, 1, 1, 1", 16, "no more than 5 cells");
    let many: String = (1..=1_001).map(|i| format!("p{i:04}, {i}, 1, 1\n")).collect();
    fault(&format!("{HEAD}{many}"), 1_003, 8, "no more than 1000 sizes");
    let alike: String = (1..=99).map(|i| format!("p{i}, 7, 1, 1\n")).collect();
    assert!(read(format!("{HEAD}{alike}").as_bytes(), None).is_ok());
}

#[test]
fn text_and_quotes() {
    panel("\"b, 1, 1, 1", 12, "a closing quote");
    panel("\"b\" c, 1, 1, 1", 5, "the cell's end");
    let faults = read(b"plate, 5 x 5\nna\x9dme\n", None).expect_err("no text");
    assert_eq!((faults[0].line, faults[0].column), (2, 3));
    assert!(faults[0].expected.contains("UTF-8"));
}

#[test]
fn sizes_together() {
    let with = |saw: &str, piece: &str| {
        format!("plate, 2440 x 1220\nsaw, {saw}\nname, length, width, count\n{piece}\n")
    };
    fault(&with("kerf 1000.001", "a, 1, 1, 1"), 2, 6, "at most 1000 mm");
    fault(&with("kerf 3", "a, 2440.1, 1, 1"), 4, 4, "fits a plate");
    fault(&with("kerf 3", "a, 1, 1220.1, 1"), 4, 4, "fits a plate");
    fault(&with("kerf 3", "a, 1000, 1300, 1"), 4, 4, "2440 x 1220");
    fault(
        "plate, 9 x 9\ntrim, 2\nsaw, kerf 3\nname, length, width, count\na, 1, 1, 1",
        2,
        7,
        "wider than the kerf",
    );
    let turned = "plate, 2440 x 1220\nturning, yes\nname, length, width, count\n";
    assert!(read(format!("{turned}a, 1000, 1300, 1").as_bytes(), None).is_ok());
    fault(&format!("{turned}a, 1230, 1300, 1"), 4, 4, "fits a plate");
}

#[test]
fn every_faulty_line_is_named_and_nothing_is_written() {
    let scratch = Scratch::new("faults");
    let order = scratch.write("order.csv", format!("{HEAD}a, x, 1, 1\nb, 1, 1, 1\nc, 1, 1, 99999\n"));
    let faults = scratch.plan(&order, &[]).expect_err("two faults");
    let lines: Vec<_> = faults.lines().collect();
    assert!(lines.len() == 2 && lines[0].contains("line 3, column 4: expected a length"), "{faults}");
    assert!(lines[1].contains("line 5, column 10: expected a count, a whole number from 0 to 10000"));
    assert!(lines[1].ends_with("found \"99999\""), "{faults}");
    for file in ["plan.svg", "plan.json", "plan.stamp"] {
        assert!(!Path::new(&scratch.path(file)).exists());
    }
}
