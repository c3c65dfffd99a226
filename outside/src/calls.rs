// Every call of planner.h as one value, so that tests run the same cases on several implementations.
use crate::answers::{PlanArrays, Rack, Storage, TruePlanArrays};
use crate::slices::calls as proved;

macro_rules! table {
    ($($(#[$doc:meta])* $name:ident($($argument:ident: $takes:ty),*) -> $answer:ty;)*) => {
        /// One implementation of the calls.
        pub struct Calls {
            pub name: &'static str,
            $(pub $name: fn($($takes,)* &mut [u64]) -> u32,)*
        }

        /// The proved calls.
        pub const PROVED: Calls = Calls { name: "proved", $($name: proved::$name,)* };
    };
}

planner::calls!(table);
