// The same algorithms without proofs, in C (`c`, `checks`) and, for bound and written plan, in Rust too, for
// the benchmark.
// All take jobs in the new block and storage as large enough; jobs are accepted ones but for checks of plans.
pub mod c;
pub mod checks;
pub mod rust;
