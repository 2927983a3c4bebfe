//! An independent reader and editor of rule decks in plain Rust, written from document 01 alone: the oracle
//! of the comparison and of the stored vectors. It goes the long way on purpose: a deck is read into a list of
//! rules, the list is edited, and the deck is written afresh.
#![allow(dead_code)]
#![forbid(unsafe_code)]

pub mod convert;
pub mod date;
pub mod deck;
pub mod edit;
pub mod element;
pub mod kind;
pub mod lister;
pub mod random;
pub mod reader;
pub mod results;
pub mod tables;
pub mod text;
pub mod value;

/// A refusal: its number of document 01's table, and its place.
#[derive(Clone, Copy, Debug, PartialEq, Eq)]
pub struct Refusal {
    pub number: u64,
    pub place: u64,
}

pub type Answer<T> = Result<T, Refusal>;

pub fn refuse<T>(number: u64, place: u64) -> Answer<T> {
    Err(Refusal { number, place })
}

/// "the same fault in the second deck or in given element data": the number plus 32, the place there.
pub fn given<T>(answer: Answer<T>) -> Answer<T> {
    answer.map_err(|r| Refusal { number: r.number + 32, place: r.place })
}

/// One 64-bit number: code plus 256 times place. On success the place is the one answered.
pub fn coded(answer: Answer<u64>) -> u64 {
    match answer {
        Ok(place) => 256 * place,
        Err(r) => r.number + 256 * r.place,
    }
}

pub const DESK: u64 = 1;
pub const STUDIO: u64 = 2;

/// "1: edition not 1 or 2", at 0.
pub fn judge_edition(edition: u64) -> Answer<()> {
    match edition {
        DESK | STUDIO => Ok(()),
        _ => refuse(1, 0),
    }
}

#[cfg(test)]
mod tests;
#[cfg(test)]
mod version_tests;
