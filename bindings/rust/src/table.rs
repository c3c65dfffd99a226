//! The calls of planner.h, each once: what it is for, what it takes and what it answers.
//! Whatever has an item for each call is made from this table, here and in the tests from outside.

/// Hands the table to a macro, which must see the types of `answers`.
#[macro_export]
macro_rules! calls {
    ($with:ident) => {
        $with! {
            /// Checks a plan given as two arrays.
            check_plan(job: &[u8], choices: u32, kinds: &[u8], operands: &[u16]) -> Report;

            /// Checks a plan block.
            check_plan_block(job: &[u8], choices: u32, plan: &[u8]) -> Report;

            /// Computes the bound and fills the storage.
            bound(job: &[u8], choices: u32, weights: &[u8], storage: Storage) -> Bound;

            /// Writes the plan behind the bound and fills the storage.
            write_plan(
                job: &[u8], choices: u32, weights: &[u8], storage: Storage, plan: PlanArrays
            ) -> Written;

            /// Writes the neat plan of a plan.
            neat_plan(
                job: &[u8], choices: u32, kinds: &[u8], operands: &[u16], plan: PlanArrays
            ) -> Neat;

            /// Certifies a plan and fills the storage.
            certify(
                job: &[u8], choices: u32, weights: &[u8], kinds: &[u8], operands: &[u16],
                storage: Storage
            ) -> Certificate;

            /// Checks a plan as the saw does, which reads no price.
            saw_check(job: &[u8], choices: u32, kinds: &[u8], operands: &[u16]) -> SawReport;

            /// Where the part of the kinds stands that belongs to a node and all below it.
            saw_kinds(
                job: &[u8], choices: u32, kinds: &[u8], operands: &[u16], node: u64
            ) -> Part;

            /// Where the part of the operands stands that belongs to a node and all below it.
            saw_operands(
                job: &[u8], choices: u32, kinds: &[u8], operands: &[u16], node: u64
            ) -> Part;

            /// Checks a plan against a limit on its stages.
            check_plan_staged(
                job: &[u8], choices: u32, limit: u32, kinds: &[u8], operands: &[u16]
            ) -> StagedReport;

            /// Computes the bound within a limit on the stages and fills the storage.
            bound_staged(
                job: &[u8], choices: u32, weights: &[u8], limit: u32, storage: Storage
            ) -> Bound;

            /// Certifies a plan within a limit on the stages and fills the storage.
            certify_staged(
                job: &[u8], choices: u32, weights: &[u8], limit: u32, kinds: &[u8],
                operands: &[u16], storage: Storage
            ) -> Certificate;

            /// Computes the bound under two weights a kind and fills the storage.
            bound_two(
                job: &[u8], choices: u32, first: &[u8], second: &[u8], storage: Storage
            ) -> BoundTwo;

            /// Computes the most that a tree within the demands earns, writes its plan and fills the
            /// storage.
            exact(job: &[u8], choices: u32, storage: Storage, plan: PlanArrays) -> Exact;

            /// Finds weights in rounds, from the profit of a plan. Storage and arrays are left as by
            /// the last round.
            find_weights(
                job: &[u8], choices: u32, kinds: &[u8], operands: &[u16], storage: Storage,
                plan: PlanArrays
            ) -> Found;

            /// Checks the plans of a rack of plates against one order, and writes the profits.
            check_rack(
                job: &[u8], choices: u32, rack: Rack, kinds: &[u8], operands: &[u16]
            ) -> Passed;

            /// Checks that the job is a model that stands for true sizes.
            check_model(job: &[u8], choices: u32, sizes: &[u8]) -> Passed;

            /// Writes the neat plan of a plan at the true sizes.
            true_plan(
                job: &[u8], choices: u32, sizes: &[u8], kinds: &[u8], operands: &[u16],
                plan: TruePlanArrays
            ) -> Fitted;

            /// Computes how many plates a whole order needs beside others that earn no more than
            /// `other`, and fills the storage.
            plates_needed(
                job: &[u8], choices: u32, weights: &[u8], other: u64, storage: Storage
            ) -> PlatesNeeded;

            /// Computes the bound with multipliers in place of demands and fills the storage.
            bound_lagrangian(
                job: &[u8], choices: u32, weights: &[u8], multipliers: &[u32], storage: Storage
            ) -> Lagrangian;
        }
    };
}
