//! The functions of planner.h on slices: the code that C gets, and the answer as words.
//! Safe: borrowed slices are valid, aligned and do not overlap where they are written.

use crate::answers::{PlanArrays, Rack, Storage, TruePlanArrays};

/// Every call of the table, its arguments still to be read.
macro_rules! functions {
    ($($(#[$doc:meta])* $name:ident $takes:tt -> $answer:ident;)*) => {
        $(arguments! { $name $takes [] [] $takes })*
    };
}

/// Reads the arguments one by one into what C takes: types in the first list, values in the second. A
/// slice is a pointer and a number of elements.
macro_rules! arguments {
    ($name:ident $takes:tt $types:tt $values:tt ()) => {
        function! { $name $takes $types $values }
    };
    ($name:ident $takes:tt [$($type:ty,)*] [$($value:expr,)*]
     ($slice:ident: &[$word:ty] $(, $($rest:tt)*)?)) => {
        arguments! {
            $name $takes
            [$($type,)* *const $word, usize,]
            [$($value,)* $slice.as_ptr(), $slice.len(),]
            ($($($rest)*)?)
        }
    };
    ($name:ident $takes:tt $types:tt $values:tt ($lent:ident: Storage $(, $($rest:tt)*)?)) => {
        written! {
            $name $takes $types $values [$lent lengths u16, $lent widths u16, $lent table u64]
            ($($($rest)*)?)
        }
    };
    ($name:ident $takes:tt $types:tt $values:tt ($lent:ident: PlanArrays $(, $($rest:tt)*)?)) => {
        written! {
            $name $takes $types $values [$lent kinds u8, $lent operands u16] ($($($rest)*)?)
        }
    };
    ($name:ident $takes:tt $types:tt $values:tt ($lent:ident: TruePlanArrays $(, $($rest:tt)*)?)) => {
        written! {
            $name $takes $types $values [$lent kinds u8, $lent operands u32] ($($($rest)*)?)
        }
    };
    ($name:ident $takes:tt [$($type:ty,)*] [$($value:expr,)*]
     ($rack:ident: Rack $(, $($rest:tt)*)?)) => {
        written! {
            $name $takes
            [$($type,)* *const u16, usize, *const u16, usize,]
            [
                $($value,)*
                $rack.lengths.as_ptr(), $rack.lengths.len(),
                $rack.widths.as_ptr(), $rack.widths.len(),
            ]
            [$rack profits u64] ($($($rest)*)?)
        }
    };
    ($name:ident $takes:tt [$($type:ty,)*] [$($value:expr,)*]
     ($number:ident: $word:ty $(, $($rest:tt)*)?)) => {
        arguments! {
            $name $takes [$($type,)* $word,] [$($value,)* $number,] ($($($rest)*)?)
        }
    };
}

/// Adds slices that are written, each a field of what is lent.
macro_rules! written {
    ($name:ident $takes:tt [$($type:ty,)*] [$($value:expr,)*]
     [$($lent:ident $slice:ident $word:ty),*] $rest:tt) => {
        arguments! {
            $name $takes
            [$($type,)* $(*mut $word, usize,)*]
            [$($value,)* $($lent.$slice.as_mut_ptr(), $lent.$slice.len(),)*]
            $rest
        }
    };
}

/// A call on slices, and what C declares behind it.
macro_rules! function {
    ($name:ident ($($argument:ident: $takes:ty),*) [$($type:ty,)*] [$($value:expr,)*]) => {
        #[doc = concat!("[`super::", stringify!($name), "`], the answer in words.")]
        #[allow(clippy::too_many_arguments)]
        pub fn $name($($argument: $takes,)* answer: &mut [u64]) -> u32 {
            extern "C" {
                #[link_name = concat!("planner_", stringify!($name))]
                fn declared($(_: $type,)* _: *mut u64, _: usize) -> u32;
            }
            // SAFETY: the types are those of planner.h. Each pointer with its number of elements is a
            // borrowed slice: not null, aligned, alive until the call returns, and where it is written
            // overlapped by no other.
            unsafe { declared($($value,)* answer.as_mut_ptr(), answer.len()) }
        }
    };
}

crate::calls!(functions);
