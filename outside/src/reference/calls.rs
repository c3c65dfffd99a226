// The reference's calls with codes and answer words, as planner.h has them.
// A short answer is told before anything else is looked at, and then a bit that is no choice.
use crate::answers::{
    PlanArrays, Rack, Refusal, Storage, TruePlanArrays, Words, ANSWER_TOO_SHORT, CHOICES, UNKNOWN_CHOICE,
};
use crate::calls::Calls;

macro_rules! coded_calls {
    ($($(#[$doc:meta])* $name:ident(
        $job:ident: $block:ty, $choices:ident: u32 $(, $argument:ident: $takes:ty)*
    ) -> $answer:ty;)*) => {
        pub const CALLS: Calls = Calls { name: "reference", $($name,)* };

        $(
            #[allow(clippy::too_many_arguments)]
            pub fn $name(
                $job: $block, $choices: u32, $($argument: $takes,)* answer: &mut [u64]
            ) -> u32 {
                coded($choices, answer, || super::$name($job, $choices $(, $argument)*))
            }
        )*
    };
}

planner::calls!(coded_calls);

/// A refusal needs a word for its place, also where nothing else is answered.
fn coded<const N: usize, A: Words<N>>(
    choices: u32,
    answer: &mut [u64],
    call: impl FnOnce() -> Result<A, Refusal>,
) -> u32 {
    if answer.len() < N.max(1) {
        return ANSWER_TOO_SHORT;
    }
    if choices & !CHOICES != 0 {
        return UNKNOWN_CHOICE;
    }
    match call() {
        Ok(told) => {
            answer[..N].copy_from_slice(&told.to_words());
            0
        }
        Err(refusal) => {
            answer[0] = refusal.place;
            refusal.number
        }
    }
}
