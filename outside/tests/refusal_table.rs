// One table of refusals: the code of crates/refusal, the definitions of crates/promises, docs/SCOPE.md and
// include/planner.h give every refusal the same number and the same place, and every call the same refusals.
use std::collections::{BTreeMap, BTreeSet};
use std::path::Path;

type Numbers = BTreeSet<u32>;

/// A case of a refusal: its number, and whether it carries its place, which else is 0.
type Cases = BTreeMap<String, (u32, bool)>;

/// A row of a written table.
#[derive(Debug, PartialEq)]
struct Row {
    number: u32,
    place: String,
}

const CODE: &str = "crates/refusal/src/lib.rt";
const DEFINITIONS: &str = "crates/promises/specs/Refusals.antt";
const SCOPE: &str = "docs/SCOPE.md";
const HEADER: &str = "include/planner.h";

/// What a place may be called. The two texts have the same of these for each number.
const PLACES: [&str; 12] = [
    "0",
    "1",
    "kind",
    "kerf",
    "plate",
    "length",
    "width",
    "node",
    "node count",
    "first of them",
    "words needed",
    "nodes needed",
];

/// The calls of the scope's second table that C has, and their functions.
const FUNCTIONS: [(&str, &[&str]); 18] = [
    ("checking a plan, as arrays or block", &["check_plan", "check_plan_block"]),
    ("bound", &["bound"]),
    ("writing the plan", &["write_plan"]),
    ("certifying", &["certify"]),
    ("neatening a plan", &["neat_plan"]),
    ("staged check", &["check_plan_staged"]),
    ("staged bound", &["bound_staged"]),
    ("staged certificate", &["certify_staged"]),
    ("bound of two weights", &["bound_two"]),
    ("plates needed", &["plates_needed"]),
    ("bound by multipliers", &["bound_lagrangian"]),
    ("exact call", &["exact"]),
    ("finding weights", &["find_weights"]),
    ("check of a rack", &["check_rack"]),
    ("check of a model", &["check_model"]),
    ("the true plan", &["true_plan"]),
    ("the saw's check", &["saw_check"]),
    ("a node's part", &["saw_kinds", "saw_operands"]),
];

fn text(path: &str) -> String {
    let whole = Path::new(env!("CARGO_MANIFEST_DIR")).join("..").join(path);
    std::fs::read_to_string(&whole).unwrap_or_else(|error| panic!("{path}: {error}"))
}

/// The name of a case, and what it carries, as in `Price(k)` and `(Price k)`.
fn split_case(case: &str) -> (String, Option<String>) {
    let mut words = case.split(['(', ')', ' ']).filter(|word| !word.is_empty());
    (words.next().expect("a name").into(), words.next().map(String::from))
}

/// Whether a place is what the case carries; else it is 0.
fn is_carried(place: &str, carried: &Option<String>) -> bool {
    assert!(place == "0" || Some(place) == carried.as_deref(), "{place} is no place");
    place != "0"
}

/// The lines `Refusal::Price(k) => Line(6, k as u64),`.
fn code() -> Cases {
    let line = |line: &str| {
        let (case, told) = line.trim().strip_prefix("Refusal::")?.split_once(" => Line(")?;
        let (number, place) = told.strip_suffix("),")?.split_once(", ")?;
        let (name, carried) = split_case(case);
        let place = place.trim_end_matches(" as u64");
        Some((name, (number.parse().expect("a number"), is_carried(place, &carried))))
    };
    text(CODE).lines().filter_map(line).collect()
}

/// The equations `line_of (Price k) = (6, k)`.
fn definitions() -> Cases {
    let equation = |line: &str| {
        let (case, told) = line.strip_prefix("line_of ")?.split_once(" = (")?;
        let (number, place) = told.strip_suffix(')')?.split_once(", ")?;
        let (name, carried) = split_case(case);
        Some((name, (number.parse().expect("a number"), is_carried(place, &carried))))
    };
    text(DEFINITIONS).lines().filter_map(equation).collect()
}

/// The cells of each row of the tables below a heading of the scope.
fn scope_tables() -> Vec<Vec<String>> {
    let text = text(SCOPE);
    let (_, below) = text.split_once("\n## The table of refusals\n").expect("the heading");
    let section = below.split("\n## ").next().expect("a section");
    let rows = section.lines().filter(|line| line.starts_with('|'));
    rows.map(|row| row.trim_matches('|').split('|').map(|cell| cell.trim().into()).collect()).collect()
}

fn scope() -> Vec<Row> {
    let row = |cells: &Vec<String>| match &cells[..] {
        [_, number, _, place] => Some(Row { number: number.parse().ok()?, place: place.clone() }),
        _ => None,
    };
    scope_tables().iter().filter_map(row).collect()
}

/// The rows stand in columns: number, condition, place; a row goes on below without a number.
fn header() -> Vec<Row> {
    const NUMBER: usize = 6;
    const PLACE: usize = 64;
    let text = text(HEADER);
    let (_, below) = text.split_once("Refusals, in the order of the checks").expect("the table");
    let mut rows = Vec::<Row>::new();
    for line in below.lines().skip(1).take_while(|line| line.starts_with(" *  ")) {
        let place = line.get(PLACE..).unwrap_or_default();
        match line[2..=NUMBER].trim().parse() {
            Ok(number) => rows.push(Row { number, place: place.into() }),
            Err(_) => rows.last_mut().expect("a row").place += &format!(" {place}"),
        }
    }
    rows
}

/// What the places of a number are called.
fn named_places(rows: &[Row]) -> BTreeMap<u32, BTreeSet<&'static str>> {
    let mut places = BTreeMap::<u32, BTreeSet<&'static str>>::new();
    for Row { number, place } in rows {
        let spaced = format!(" {} ", place.replace([',', ';'], " ").replace("  ", " "));
        let named = PLACES.into_iter().filter(|name| spaced.contains(&format!(" {name} ")));
        places.entry(*number).or_default().extend(named);
    }
    places
}

/// The numbers of a text: `4 to 7` are four, `the job's` are those given, and `without` takes one away.
fn numbers(text: &str, jobs: &Numbers) -> Numbers {
    let mut all = Numbers::new();
    let (mut last, mut before) = (0, "");
    for word in text.split([' ', ',', ';', '(', ')']).filter(|word| !word.is_empty()) {
        match (word.parse(), before) {
            (Ok(number), "to") => all.extend(last..=number),
            (Ok(number), "without") => _ = all.remove(&number),
            (Ok(number), before) if before != "round" => _ = all.insert(number),
            _ if word == "job's" => all.extend(jobs),
            _ => {}
        }
        last = word.parse().unwrap_or(last);
        before = word;
    }
    all
}

/// As the table of calls says: among 10 to 18, and among 12 to 17, stands 36.
fn with_grain(mut numbers: Numbers) -> Numbers {
    numbers.extend(numbers.contains(&13).then_some(36));
    numbers
}

/// The refusals of each call of the scope's second table. A link is its words.
fn scope_calls() -> BTreeMap<String, Numbers> {
    let tables = scope_tables();
    let calls: Vec<&Vec<String>> = tables.iter().filter(|cells| cells.len() == 2).collect();
    let reading = calls.iter().find(|cells| cells[0] == "reading a job").expect("the first call");
    let jobs = numbers(reading[1].split(':').next().expect("numbers"), &Numbers::new());
    let plain = |call: &str| {
        let shown = call.replace(['[', ']'], "\n");
        let parts = shown.lines().map(|part| part.split_once(')').map_or(part, |(_, after)| after));
        parts.collect::<String>()
    };
    calls.iter().map(|cells| (plain(&cells[0]), with_grain(numbers(&cells[1], &jobs)))).collect()
}

/// The refusals of each function of the header: those of the sentence that begins with `(refusals`. What is the
/// same as the function before has its refusals.
fn header_functions() -> BTreeMap<String, Numbers> {
    let text = text(HEADER);
    let parts: Vec<&str> = text.split("*/\nuint32_t planner_").collect();
    let mut functions = BTreeMap::new();
    let mut given = Numbers::new();
    for (above, below) in parts.iter().zip(&parts[1..]) {
        let comment = above.rsplit("/*").next().expect("a comment").replace("\n *", "");
        let sentence = comment.split_once("(refusals ").map(|(_, after)| after.split(". ").next());
        if !comment.starts_with(" The same") {
            given = numbers(sentence.flatten().unwrap_or_default(), &Numbers::new());
            given.extend(given.contains(&7).then_some(35));
        }
        let name = below.split('(').next().expect("a name");
        functions.insert(name.into(), with_grain(given.clone()));
    }
    functions
}

#[test]
fn code_and_definitions_are_one_table() {
    assert!(code().len() >= 39, "{:?}", code());
    assert_eq!(code(), definitions());
}

/// Row by row the number, and whether the place is 0.
#[test]
fn the_scope_has_the_cases_of_the_code() {
    let mut cases: Vec<(u32, bool)> = code().into_values().collect();
    let mut rows: Vec<(u32, bool)> = scope().iter().map(|row| (row.number, row.place != "0")).collect();
    cases.sort_unstable();
    rows.sort_unstable();
    assert_eq!(rows, cases);
}

#[test]
fn scope_and_header_have_the_same_numbers_and_places() {
    let (scope, header) = (named_places(&scope()), named_places(&header()));
    assert!(scope.keys().copied().eq(1..=scope.len() as u32), "{scope:?}");
    assert!(scope.values().all(|places| !places.is_empty()), "{scope:?}");
    assert_eq!(scope, header);
}

#[test]
fn scope_and_header_return_up_to_the_last_number() {
    let last = scope().iter().map(|row| row.number).max().expect("a row");
    let returned = [
        (SCOPE, format!("\n| 1 to {last} | refused")),
        (HEADER, format!("\n *   1 to {last}\n *        refused")),
    ];
    returned.iter().for_each(|(path, words)| assert!(text(path).contains(words), "{path}: {words:?}"));
}

#[test]
fn scope_and_header_give_a_call_the_same_refusals() {
    let (calls, mut functions) = (scope_calls(), header_functions());
    for (call, names) in FUNCTIONS {
        let told = calls.get(call).unwrap_or_else(|| panic!("{call} is none of {:?}", calls.keys()));
        for name in names {
            assert_eq!(functions.remove(*name).as_ref(), Some(told), "{call}, planner_{name}");
        }
    }
    assert!(functions.is_empty(), "{functions:?}");
}
