// The typed planner on job S of the scope: its types, every call, and the storage that it lends.
// The calls below it are compared word by word elsewhere.
mod calls;
mod choices;
mod grain;
mod lending;
mod orders;
mod rounds;
mod true_sizes;
mod types;

use planner::{Choices, Direction, Job, Kind, Plan, Planner, Tree};

const WEIGHTS: [u8; 3] = [0, 1, 0];

/// More than any call here needs.
const AMPLE: u64 = 1 << 20;

fn kind(length: u16, width: u16, price: u32, demand: u16) -> Kind {
    Kind { length, width, price, demand, grain: false }
}

fn job_s() -> Job {
    let kinds = vec![kind(2, 3, 7, 1), kind(3, 1, 4, 2), kind(2, 2, 5, 1)];
    Job { length: 5, width: 3, kerf: 0, kinds }
}

fn planner(memory: u64) -> Planner {
    Planner::new(&job_s(), Choices::default(), memory)
}

fn piece(kind: u16) -> Tree {
    Tree::Piece { kind, turned: false }
}

fn along(at: u16, first: Tree, second: Tree) -> Tree {
    Tree::cut(Direction::Length, at, first, second)
}

fn across(at: u16, first: Tree, second: Tree) -> Tree {
    Tree::cut(Direction::Width, at, first, second)
}

/// The best tree of S: profit 16 within two stages.
fn best() -> Tree {
    along(2, piece(0), across(1, piece(1), piece(2)))
}

/// The first nodes of a plan.
fn first_nodes(plan: &Plan, nodes: usize) -> Plan {
    Plan { kinds: plan.kinds[..nodes].to_vec(), operands: plan.operands[..nodes].to_vec() }
}
