// Filed plans: stamps that are damaged, stamps of earlier days, and plans that somebody else has drawn, with their
// faults in words.
use crate::scratch::{shop, Scratch};

const ORDER: &str = "plate, 50 x 30\nsaw, kerf 0\nname, length, width, count, price\n\
                     a, 20, 30, 1, 7\nb, 30, 10, 2, 4\nc, 20, 20, 1, 5\n";
const BEST: &str = r#"{"cut": "length", "at": 20, "first": {"piece": "a"}, "second":
    {"cut": "width", "at": 10, "first": {"piece": "b"}, "second": {"piece": "c"}}}"#;

/// What the check says of a plan of the order.
fn checked(name: &str, plan: &str) -> Result<String, String> {
    let scratch = Scratch::new(name);
    let (order, plan) = (scratch.write("order.csv", ORDER), scratch.write("plan.json", plan));
    shop(&["check", &order, &plan])
}

#[test]
fn plans_of_others_are_judged() {
    let alone = checked("alone", BEST).expect("a plan of the order");
    assert!(
        alone.contains("worth 16\nbest: no guillotine plan of this board cuts panels worth more"),
        "{alone}"
    );
    let marked = checked("marked", &format!("\u{feff}{{\"plan\": {BEST}}}")).expect("a plan of the order");
    assert_eq!(marked, alone);
    let whole = format!("{{\"boards\": [{{\"plan\": {BEST}}}, {{\"plan\": {{\"piece\": \"b\"}}}}]}}");
    let whole = checked("whole", &whole).expect("plans of the order");
    assert!(whole.contains("2 boards: no plan needs fewer"), "{whole}");
    let less = checked("less", r#"{"piece": "c"}"#).expect("a plan of the order");
    assert!(less.contains("at most 220.0 % more is possible"), "{less}");
    assert!(less.contains("20 x 20: c"), "panels are brought to their size\n{less}");
}

#[test]
fn what_cannot_be_sawn_is_said_in_words() {
    for (index, (from, to, words)) in [
        ("\"c\"", "\"a\"", "node 4, a: a panel of 20 x 30 does not fit a part of 30 x 20"),
        ("\"at\": 20", "\"at\": 50", "node 0, the cut of the length at 50: it is not within the side of 50"),
        ("\"at\": 10", "\"at\": 9990", "the cut of the width at 9990: it is not within the side of 30"),
        ("{\"piece\": \"a\"}", "{\"piece\": \"c\"}", "c is cut 2 times, and 1 are ordered"),
        (
            "\"piece\": \"c\"",
            "\"piece\": \"b\", \"turned\": true",
            "b: a panel of 10 x 30 does not fit a part",
        ),
    ]
    .into_iter()
    .enumerate()
    {
        let refused = checked(&format!("refused{index}"), &BEST.replace(from, to)).expect_err(to);
        assert!(refused.contains(words), "{refused}");
    }
    let turned = checked("turned", r#"{"piece": "c", "turned": true}"#);
    assert!(turned.is_ok(), "a square has no grain to keep");
    let turned = checked(
        "against",
        r#"{"cut": "length", "at": 30, "first": {"piece": "a", "turned": true}, "second": {"waste": true}}"#,
    );
    assert_eq!(turned.expect_err("a grain").split(": ").last(), Some("a is turned and may not be"));
    let shaved = r#"{"cut": "length", "at": 20, "first": {"piece": "a"}, "second": null}"#;
    let shaved = checked("shaved", shaved).expect_err("a second part");
    assert!(shaved.contains("a second part of 30 is left, and none is named"), "{shaved}");
}

#[test]
fn faults_of_plans_are_placed() {
    for (index, (plan, words)) in [
        ("", "line 1, column 1: expected a JSON value"),
        ("{\"piece\": \"a\"} 1", "line 1, column 16: expected the end of the file"),
        ("{\n \"piece\" \"a\"}", "line 2, column 10: expected a colon"),
        ("{\"piece\": \"a", "line 1, column 13: expected a closing quote"),
        ("{\"piece\": \"a\"; }", "line 1, column 14: expected a comma or a closing brace"),
        ("[1; 2]", "line 1, column 3: expected a comma or a closing bracket"),
        ("{\"piece\": \"\\x\"}", "expected an escape of JSON"),
        ("{\"piece\": \"z\"}", "the plan: expected a panel of the order, found \"z\""),
        ("{}", "the plan: expected \"cut\", \"piece\" with a name, or \"waste\": true"),
        ("{\"cut\": \"depth\"}", "the plan: expected length or width as \"cut\""),
        (
            "{\"cut\": \"width\", \"at\": 1.2345}",
            "the plan: expected millimetres with at most three decimals as \"at\"",
        ),
        ("{\"cut\": \"width\", \"at\": 10}", "the plan: expected a part \"first\""),
        (
            "{\"cut\": \"width\", \"at\": 10, \"first\": {\"waste\": true}, \"second\": {\"piece\": 1}}",
            "second part of the plan: expected \"cut\"",
        ),
        ("{\"piece\": \"a\", \"evidence\": [300]}", "evidence: expected stock"),
        (&"[".repeat(50_000), "nested less deeply"),
    ]
    .into_iter()
    .enumerate()
    {
        let fault = checked(&format!("fault{index}"), plan).expect_err(plan);
        assert!(fault.contains(words), "{fault}\n{plan}");
    }
}

/// What the recheck says of a stamp.
fn rechecked(name: &str, bytes: &[u8]) -> Result<String, String> {
    let scratch = Scratch::new(name);
    shop(&["recheck", &scratch.write("stamp", bytes)])
}

#[test]
fn damaged_stamps_are_refused_or_judged_anew() {
    let scratch = Scratch::new("stamped");
    let order = scratch.write("order.csv", ORDER);
    let summary = scratch.plan(&order, &["--one"]).expect("an order without fault");
    let stamp = scratch.read("plan.stamp");
    assert_eq!(rechecked("stamp-whole", stamp.as_bytes()).expect("a stamp"), summary);
    for length in (0..stamp.len() - 1).step_by(37) {
        let short =
            rechecked("stamp-short", &stamp.as_bytes()[..length]).expect_err("a stamp that is cut short");
        assert!(short.contains("expected"), "{short}");
    }
    for (from, to) in [
        ("plan stamp 2", "plan stamp 3"),
        ("a, 20, 30", "a, 20, 31"),
        ("a, 20, 30, 1", "a, 20, 30, 0"),
        ("plate, 50 x 30", "plate, 49 x 30"),
        ("\"at\": 20", "\"at\": 21"),
    ] {
        assert!(stamp.contains(from), "{stamp}");
        rechecked("stamp-damaged", stamp.replacen(from, to, 1).as_bytes()).expect_err(to);
    }
    let dearer =
        rechecked("stamp-dearer", stamp.replacen("b, 30, 10, 2, 4", "b, 30, 10, 2, 9", 1).as_bytes());
    assert!(!dearer.expect("another order").contains("worth 16\n"));
}

/// A stamp of earlier days: job S, weights 0 1 0, and a plan that earns 16.
fn old_stamp() -> Vec<u8> {
    let job: Vec<u8> = [5u16, 3, 3, 0, 2, 3, 3, 1, 2, 2].iter().flat_map(|word| word.to_le_bytes()).collect();
    let pairs = [(7u32, 1u16), (4, 2), (5, 1)];
    let pairs =
        pairs.iter().flat_map(|(price, demand)| [&price.to_le_bytes()[..], &demand.to_le_bytes()].concat());
    let job: Vec<u8> = job.into_iter().chain(pairs).collect();
    let operands: Vec<u8> = [2u16, 0, 1, 1, 2].iter().flat_map(|word| word.to_le_bytes()).collect();
    let plan = [&[5, 0, 2, 1, 3, 1, 1][..], &operands].concat();
    let sections = [&job[..], &[0, 1, 0], &[], &plan];
    let mut bytes = b"CUTSTAMP".to_vec();
    bytes.extend(0u32.to_le_bytes());
    sections.iter().for_each(|section| bytes.extend((section.len() as u32).to_le_bytes()));
    bytes.extend(sections.concat());
    bytes
}

#[test]
fn stamps_of_earlier_days_are_read() {
    let old = old_stamp();
    assert_eq!(
        rechecked("old", &old).expect("a stamp"),
        "earns 16, no plan earns more than 16\n\
         best: no guillotine plan of this plate in whole units earns more (plate, panels and kerf as filed)\n"
    );
    for length in 0..old.len() {
        rechecked("old-short", &old[..length]).expect_err("a stamp that is cut short");
    }
    let longer = rechecked("old-longer", &[&old[..], &[0]].concat()).expect_err("a byte too many");
    assert!(longer.contains("expected no bytes after the plan block"));
    let mut plan = old;
    let node = plan.len() - 15;
    plan[node] = 9;
    assert!(rechecked("old-plan", &plan).expect_err("no such node").contains("refusal 12"), "{plan:?}");
}
