//! Every call of the table with its answer as a type.

use super::calls;
use crate::answers::{
    Bound, BoundTwo, Certificate, Exact, Fitted, Found, Lagrangian, Neat, Part, Passed, PlanArrays,
    PlatesNeeded, Rack, Refusal, Report, SawReport, StagedReport, Storage, TruePlanArrays, Words, Written,
    STAGED_REPORT_WORDS,
};

/// Words of the longest answer.
const MOST_WORDS: usize = STAGED_REPORT_WORDS;

macro_rules! typed_calls {
    ($($(#[$doc:meta])* $name:ident($($argument:ident: $takes:ty),*) -> $answer:ty;)*) => {
        $(
            $(#[$doc])*
            #[allow(clippy::too_many_arguments)]
            pub fn $name($($argument: $takes),*) -> Result<$answer, Refusal> {
                typed(|answer| calls::$name($($argument,)* answer))
            }
        )*
    };
}

crate::calls!(typed_calls);

/// Lends the words of the answer, and one for the place of a refusal where there are none.
fn typed<const N: usize, A: Words<N>>(call: impl FnOnce(&mut [u64]) -> u32) -> Result<A, Refusal> {
    let mut words = [0; MOST_WORDS];
    match call(&mut words[..N.max(1)]) {
        0 => Ok(A::from_words(words[..N].try_into().expect("the words of an answer"))),
        number => Err(Refusal { number, place: words[0] }),
    }
}
