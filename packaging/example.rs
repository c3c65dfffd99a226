// Job S of docs/SCOPE.md from Rust, by the installed library: the plan behind the bound, and its certificate.
use planner::{Choices, Job, Kind, Planner, Tree};

fn main() -> Result<(), planner::Error> {
    let kind = |length, width, price, demand| Kind { length, width, price, demand, grain: false };
    let kinds = vec![kind(2, 3, 7, 1), kind(3, 1, 4, 2), kind(2, 2, 5, 1)];
    let mut planner = Planner::new(&Job { length: 5, width: 3, kerf: 0, kinds }, Choices::default(), 1 << 20);
    let found = planner.find_weights(&Tree::Waste.plan())?;
    let (_, plan) = planner.write_plan(&found.weights)?;
    let certificate = planner.certify(&found.weights, &plan)?;
    println!("profit {}{}", certificate.profit, if certificate.gap == 0 { ", best" } else { "" });
    Ok(())
}
