//! Conversions from one version to the other: the answers, and every byte of the buffer and of a guard behind it.
use crate::baseline::convert::convert;
use crate::baseline::deck::{Deck, Version};
use crate::baseline::{coded, Answer};
use crate::door;
use crate::share::{hex, left_behind, said, Answers};

const GUARD: usize = 16;

pub static ANSWERS: Answers = Answers::new();

/// A deck converted into a buffer of that many bytes, on both sides.
fn converted_differs(to: Version, edition: u64, bytes: &[u8], size: usize) -> Option<String> {
    let found: Vec<u8> = (0..size + GUARD).map(|i| (i * 167 + 13) as u8).collect();
    let (mut left, mut wanted) = (found.clone(), found.clone());
    let answer = door::convert(to, edition, bytes, &mut left[..size]);
    let expected = coded(convert(to, edition, bytes, &mut wanted[..size]));
    if answer == expected && left == wanted {
        ANSWERS.count(expected);
        return None;
    }
    let call = said(&format!("to version {}, buffer of {size}", to as u8), answer, expected);
    Some(call + &left_behind(hex(&found), hex(&left), hex(&wanted)))
}

/// Buffers about as long as the result, none, and longer ones; where there is no result, one.
fn sizes(to: Version, bytes: &[u8], deck: &Answer<Deck>) -> Vec<usize> {
    match deck {
        Ok(Deck { version, rules, .. }) if *version != to => {
            let n = bytes.len() - version.index(rules.len()) + to.index(rules.len());
            vec![n, n - 1, n + 1, 0, n + 40]
        }
        _ => vec![bytes.len() + 40],
    }
}

/// To each version, and so once to the one that the deck has.
pub fn differs(edition: u64, bytes: &[u8], deck: &Answer<Deck>) -> Option<String> {
    let of = |&to: &Version| sizes(to, bytes, deck).iter().find_map(|&n| converted_differs(to, edition, bytes, n));
    Version::ALL.iter().find_map(of)
}
