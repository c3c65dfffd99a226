// The benchmark: every call of planner.h, ours against the same algorithm in C and, for bound and written plan,
// in Rust, in one run. Prints Markdown: how it is measured, then a table for each sort of call. A word given
// as argument leaves only the lines whose job, call or table has it in its name.
mod calls;
mod jobs;
mod measure;
mod memory;
mod report;

use calls::Call;
use jobs::Job;
use report::{Fact, Table};

const P: (&str, Fact) = ("p", Fact::Answer(2));
const R: (&str, Fact) = ("r", Fact::Answer(3));
const Q: (&str, Fact) = ("Q", Fact::Answer(1));
const WORDS: (&str, Fact) = ("words", Fact::Words);
const NODES: (&str, Fact) = ("nodes", Fact::Nodes);

fn main() {
    let wanted = std::env::args().nth(1).unwrap_or_default();
    preface();
    tables().iter().for_each(|table| table.print(&wanted));
}

fn preface() {
    println!(
        "\nMeasured by `outside/run bench`: every call of the proved library against the same algorithm written for speed alone in C (`outside/bench`)\n\
         and, for bound and written plan, in Rust (`outside/src/baseline/rust`), in one run. They take turns; each figure is the least of {} to\n\
         {} samples of processor time, where one of each takes more than {} s together a single sample; short calls are repeated within a\n\
         sample. Memory is touched before the first call and not cleared between calls. Before a line is measured, all must give the same\n\
         answers and leave the same lists, table and plan. The jobs are generated from fixed seeds.",
        measure::FEWEST,
        measure::MOST,
        measure::LINE_SECONDS,
    );
}

fn tables() -> Vec<Table> {
    let table = |title, facts: &[_], calls: &[&'static Call], jobs: Vec<Job>| {
        let lines = jobs.iter().flat_map(|job| calls.iter().map(|&call| (job.clone(), call)));
        Table { title, facts: facts.to_vec(), lines: lines.collect() }
    };
    let sizes = [P, R, Q, WORDS, ("nodes", Fact::Answer(4))];
    let bounds = |title, jobs| table(title, &sizes, &[&calls::BOUND, &calls::PLAN], jobs);
    let of_two = [("p", Fact::Answer(3)), ("r", Fact::Answer(4)), WORDS];
    let of_states = [P, R, ("states", Fact::Answer(1)), WORDS, ("optimum", Fact::Answer(0))];
    let of_rounds = [("rounds", Fact::Answer(1)), ("bound", Fact::Answer(0))];
    let certificates = [&calls::CERTIFICATE, &calls::STAGED_CERTIFICATE];
    let checks: Vec<_> = calls::CHECKS.iter().collect();
    let true_sizes: Vec<_> = calls::TRUE_SIZES.iter().collect();
    let orders: Vec<_> = calls::ORDERS.iter().collect();
    vec![
        bounds("Named jobs", jobs::named()),
        bounds("Growth with p and r", jobs::growing_plates()),
        bounds("Growth with Q", jobs::growing_capacities()),
        table("Staged bounds", &[P, R, Q, WORDS], &[&calls::STAGED], jobs::staged()),
        table("Bounds of two weights", &of_two, &[&calls::TWO_WEIGHTS], jobs::two_weights()),
        table("Exact answers", &of_states, &[&calls::EXACT], jobs::exact()),
        table("Weights found", &of_rounds, &[&calls::ROUNDS], jobs::rounds()),
        table("Certificates", &[WORDS, NODES], &certificates, jobs::certificates()),
        table("Checks and neat plans", &[NODES], &checks, jobs::plans()),
        table("Racks", &[NODES], &[&calls::RACK], jobs::racks()),
        table("True sizes", &[NODES], &true_sizes, jobs::true_sizes()),
        table("Orders", &[WORDS], &orders, jobs::orders()),
        worst(),
    ]
}

/// Jobs on which the calls that fill a table are slow.
fn worst() -> Table {
    let [full, staged] = jobs::worst_plates();
    let [one, two] = jobs::worst_shares();
    let lines = vec![
        (full, &calls::BOUND),
        (staged, &calls::STAGED),
        (one, &calls::BOUND),
        (two, &calls::TWO_WEIGHTS),
        (jobs::worst_exact(), &calls::EXACT),
    ];
    Table { title: "Worst cases", facts: vec![WORDS], lines }
}
