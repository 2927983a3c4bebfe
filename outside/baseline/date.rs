//! Dates: whole numbers taken from the bits of a double; no float is computed with.
use super::{refuse, Answer};

#[derive(Clone, Copy, Debug, PartialEq, Eq)]
pub struct Civil {
    pub year: u64,
    pub month: u64,
    pub day: u64,
    pub second: u64,
}

/// The whole part and the second of the day of a finite double's size; none if it is 2^52 or more, or not finite.
fn size_of(bits: u64) -> Option<(u64, u64)> {
    let exponent = (bits >> 52) & 0x7FF;
    let fraction = bits & ((1 << 52) - 1);
    if exponent >= 1075 {
        return None;
    }
    if exponent == 0 {
        return Some((0, 0)); // zero, or far below 1/86400
    }
    // the size is mantissa / 2^down
    let mantissa = u128::from(fraction + (1 << 52));
    let down = 1075 - exponent;
    if down > 100 {
        return Some((0, 0)); // below 2^-47
    }
    let whole = mantissa >> down;
    let part = mantissa - (whole << down);
    Some((whole as u64, ((part * 86_400) >> down) as u64))
}

fn negative(bits: u64) -> bool {
    bits >> 63 == 1
}

/// "above -657435 and below 2958466; infinities and not-a-numbers are refused"
pub fn accepted(bits: u64) -> bool {
    match size_of(bits) {
        None => false,
        Some((whole, _)) if negative(bits) => whole < 657_435,
        Some((whole, _)) => whole < 2_958_466,
    }
}

fn leap(year: u64) -> bool {
    year % 4 == 0 && (year % 100 != 0 || year % 400 == 0)
}

const MONTHS: [[u64; 12]; 2] =
    [[31, 28, 31, 30, 31, 30, 31, 31, 30, 31, 30, 31], [31, 29, 31, 30, 31, 30, 31, 31, 30, 31, 30, 31]];

/// The civil date of a day counted from 1 January 100, by walking: years, then months.
fn walk(days: u64) -> (u64, u64, u64) {
    let mut left = days;
    let mut year = 100;
    while left >= 365 + u64::from(leap(year)) {
        left -= 365 + u64::from(leap(year));
        year += 1;
    }
    let lengths = MONTHS[usize::from(leap(year))];
    let mut month = 0;
    while left >= lengths[month] {
        left -= lengths[month];
        month += 1;
    }
    (year, month as u64 + 1, left + 1)
}

/// A lone date: "answers 11 at 0".
pub fn civil(bits: u64) -> Answer<Civil> {
    let (whole, second) = match size_of(bits) {
        Some(size) if accepted(bits) => size,
        _ => return refuse(11, 0),
    };
    let days = if negative(bits) { 657_434 - whole } else { 657_434 + whole };
    let (year, month, day) = walk(days);
    Ok(Civil { year, month, day, second })
}
