//! Calls that fill a lent table, on both sides: after each the answers, every number of the table and of a guard
//! behind it must be the same.
use crate::baseline::{coded, Answer};
use crate::share::{left_behind, said, Answers};
use std::fmt::LowerHex;
use std::ops::RangeInclusive;

/// The longest table and its guard.
const MOST: usize = 12;

pub trait Number: Copy + PartialEq + From<u32> + LowerHex {}
impl Number for u32 {}
impl Number for u64 {}

/// What a table holds before a call: in each number another mark.
pub fn as_found<T: Number>() -> [T; MOST] {
    std::array::from_fn(|i| T::from(0xA5A5_A500 + i as u32))
}

fn shown<T: Number>(numbers: &[T]) -> String {
    numbers.iter().map(|n| format!("{n:x}")).collect::<Vec<_>>().join(" ")
}

fn table_differs<T: Number>(
    answers: &Answers,
    len: usize,
    archive: impl Fn(&mut [T]) -> u64,
    baseline: impl Fn(&mut [T]) -> Answer<u64>,
) -> Option<String> {
    let (mut left, mut wanted) = (as_found::<T>(), as_found::<T>());
    let answer = archive(&mut left[..len]);
    let expected = coded(baseline(&mut wanted[..len]));
    if answer == expected && left == wanted {
        answers.count(expected);
        return None;
    }
    let call = said(&format!("table of {len}"), answer, expected);
    Some(call + &left_behind(shown(&as_found::<T>()), shown(&left), shown(&wanted)))
}

/// The first of these sizes of a table on which the two differ, and how.
pub fn tables_differ<T: Number>(
    answers: &Answers,
    mut sizes: RangeInclusive<usize>,
    archive: impl Fn(&mut [T]) -> u64,
    baseline: impl Fn(&mut [T]) -> Answer<u64>,
) -> Option<String> {
    sizes.find_map(|len| table_differs(answers, len, &archive, &baseline))
}

/// From no table at all to two numbers more than it takes.
pub fn every_size(room: usize) -> RangeInclusive<usize> {
    0..=room + 2
}
