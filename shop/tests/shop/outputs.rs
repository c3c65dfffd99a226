// Nothing is lost: outputs are opened before the search, none may be an input or named twice, and what cannot be
// written does not keep the plan back.
use crate::scratch::{shop, Scratch};
use std::process::{Command, Stdio};

const ORDER: &str = "plate, 500 x 400\nsaw, kerf 3\nname, length, width, count\na, 400, 300, 1\n";

fn refused(scratch: &Scratch, words: &[&str], wrong: &str) {
    let before = scratch.read("order.csv");
    let error = shop(words).expect_err("outputs that clash");
    assert!(error.contains(wrong), "{error}");
    assert_eq!(before, scratch.read("order.csv"));
}

#[test]
fn outputs_may_not_clash() {
    let scratch = Scratch::new("clash");
    let order = scratch.write("order.csv", ORDER);
    refused(&scratch, &[&order, "--svg", &order], "an output may not be what is read");
    let file = scratch.path("plan");
    refused(&scratch, &[&order, "--svg", &file, "--json", &file], "an output may not be named twice");
    let beside = scratch.path("none/plan.svg");
    refused(&scratch, &[&order, "--svg", &beside], "No such file");
    let left = std::fs::read_dir(scratch.path("")).expect("a folder").count();
    assert_eq!(left, 1, "nothing is left behind");
}

#[test]
fn a_full_disk_does_not_keep_the_plan_back() {
    let scratch = Scratch::new("full");
    let order = scratch.write("order.csv", ORDER);
    let output = Command::new(env!("CARGO_BIN_EXE_shop")).args([&order, "--json", "/dev/full"]).output();
    let output = output.expect("the program runs");
    assert_eq!(output.status.code(), Some(1));
    assert!(String::from_utf8_lossy(&output.stdout).contains("1 board: no plan needs fewer"));
    assert!(String::from_utf8_lossy(&output.stderr).contains("/dev/full"));
}

#[test]
fn a_closed_pipe_ends_without_a_word() {
    let scratch = Scratch::new("pipe");
    let order = scratch.write("order.csv", ORDER);
    let program = Command::new(env!("CARGO_BIN_EXE_shop"))
        .arg(&order)
        .stdout(Stdio::piped())
        .stderr(Stdio::piped())
        .spawn();
    let mut program = program.expect("the program runs");
    drop(program.stdout.take());
    let output = program.wait_with_output().expect("it ends");
    assert_eq!(String::from_utf8_lossy(&output.stderr), "");
}

#[test]
fn very_many_faults_are_counted() {
    let scratch = Scratch::new("many-faults");
    let order = format!("{ORDER}{}", "b, x, 1, 1\n".repeat(200_000));
    let wrong = shop(&[&scratch.write("order.csv", order)]).expect_err("faults");
    assert_eq!(wrong.lines().count(), 21);
    assert!(wrong.ends_with("199980 more faults"), "{wrong}");
}

#[test]
fn a_very_long_name_is_planned() {
    let scratch = Scratch::new("long-name");
    let name = "n".repeat(65_535);
    let order = scratch.write("order.csv", format!("{ORDER}{name}, 10, 10, 1\n"));
    let summary = scratch.plan(&order, &[]).expect("an order without fault");
    assert!(summary.contains(&name));
}

#[test]
fn an_interrupt_gives_the_best_plan_so_far() {
    let scratch = Scratch::new("interrupt");
    let panel = |i: usize| format!("p{i}, {}, {}, 3\n", 101 + 37 * i, 53 + 29 * i);
    let panels: String = (0..20).map(panel).collect();
    let head = "plate, 2440 x 1220\nsaw, kerf 3.2\nturning, yes\nname, length, width, count\n";
    let order = scratch.write("order.csv", format!("{head}{panels}"));
    let json = scratch.path("plan.json");
    let program = Command::new(env!("CARGO_BIN_EXE_shop"))
        .args([&order, "--one", "--seconds", "100", "--json", &json])
        .stdout(Stdio::piped())
        .spawn()
        .expect("the program runs");
    std::thread::sleep(std::time::Duration::from_secs(2));
    let number = program.id().to_string();
    assert!(Command::new("kill").args(["-INT", &number]).status().expect("kill").success());
    let output = program.wait_with_output().expect("it ends");
    assert!(output.status.success());
    assert!(String::from_utf8_lossy(&output.stdout).contains("more is possible"));
    assert!(scratch.document().get("plan").is_some());
}
