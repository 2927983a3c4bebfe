//! The work of some calls in plain safe Rust, as one would write it for speed: one pass that judges the deck, then steps over
//! it that trust what was judged; slices, and nothing allocated. Answers are code plus 256 times place.
#![allow(dead_code)]
#![forbid(unsafe_code)]

mod check;
pub mod edit;
mod step;
pub mod tables;

pub struct Refused(u64, usize);
pub type Answer<T> = Result<T, Refused>;

fn coded(answer: Answer<usize>) -> u64 {
    match answer {
        Ok(place) => 256 * place as u64,
        Err(Refused(number, place)) => number + 256 * place as u64,
    }
}

#[inline(never)]
pub fn check(edition: u64, s: &[u8]) -> u64 {
    coded(check::check(edition, s).map(|deck| deck.rules))
}

#[inline(never)]
pub fn read(edition: u64, s: &[u8], rules: &mut [u32], elements: &mut [u32]) -> u64 {
    coded(tables::read(edition, s, rules, elements))
}

/// The first byte of the name of rule k.
#[inline(never)]
pub fn name(edition: u64, s: &[u8], k: u64) -> u64 {
    coded(step::name(edition, s, k))
}

/// The first byte of word w of element e of rule k.
#[inline(never)]
pub fn word(edition: u64, s: &[u8], k: u64, e: u64, w: u64) -> u64 {
    coded(step::word(edition, s, k, e, w))
}
