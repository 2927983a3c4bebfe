//! Steps over a deck that was judged.
use super::check::{check, Deck, Kind, HEADER, KINDS};
use super::{Answer, Refused};

pub fn u16_in(s: &[u8], at: usize) -> usize {
    u16::from_le_bytes(s[at..at + 2].try_into().unwrap()) as usize
}

pub fn u32_in(s: &[u8], at: usize) -> u32 {
    u32::from_le_bytes(s[at..at + 4].try_into().unwrap())
}

/// First byte of the units, and end, of a String.
pub fn units(s: &[u8], at: usize) -> (usize, usize) {
    match s[at] {
        255 => (at + 3, at + 3 + 2 * u16_in(s, at + 1)),
        n => (at + 1, at + 1 + 2 * n as usize),
    }
}

/// Where the Data Size of the rule at a place stands.
pub fn size_at(s: &[u8], at: usize) -> usize {
    units(s, at + 4).1 + 20
}

pub fn rule_end(s: &[u8], at: usize) -> usize {
    let size = size_at(s, at);
    size + 4 + u32_in(s, size) as usize
}

/// Where rule k starts: as its offset says, or by a step over each rule before it.
fn start(s: &[u8], deck: &Deck, k: usize) -> usize {
    match deck.offset {
        0 => (0..k).fold(HEADER, |at, _| rule_end(s, at)),
        n => u32_in(s, HEADER + n * k) as usize,
    }
}

/// Where rule k starts and where it ends.
pub fn rule(s: &[u8], deck: &Deck, k: usize) -> (usize, usize) {
    let start = start(s, deck, k);
    (start, rule_end(s, start))
}

pub fn head_size(k: usize) -> usize {
    if k == 0 {
        18
    } else {
        2
    }
}

pub fn data_end(s: &[u8], identifier: u32, at: usize) -> usize {
    match KINDS[identifier as usize].0 {
        Kind::Marker => at + 12,
        Kind::Size => at + 16,
        Kind::Dates => at + 40,
        Kind::Words => (0..u32_in(s, at)).fold(at + 4, |end, _| units(s, end + 4).1),
        _ => at + 8,
    }
}

pub fn name(edition: u64, s: &[u8], k: u64) -> Answer<usize> {
    let deck = check(edition, s)?;
    if k >= deck.rules as u64 {
        return Err(Refused(16, 0));
    }
    Ok(units(s, start(s, &deck, k as usize) + 4).0)
}

pub fn word(edition: u64, s: &[u8], k: u64, e: u64, w: u64) -> Answer<usize> {
    let deck = check(edition, s)?;
    if k >= deck.rules as u64 {
        return Err(Refused(16, 0));
    }
    let k = k as usize;
    let count = size_at(s, start(s, &deck, k)) + 4;
    if e >= u16_in(s, count) as u64 {
        return Err(Refused(16, 1));
    }
    let mut at = count + 2 + head_size(k);
    for _ in 0..e {
        at = data_end(s, u32_in(s, at), at + 4) + 2;
    }
    let list = KINDS[u32_in(s, at) as usize].0 == Kind::Words;
    if !list || w >= u32_in(s, at + 4) as u64 {
        return Err(Refused(16, 2));
    }
    let at = (0..w).fold(at + 8, |at, _| units(s, at + 4).1);
    Ok(units(s, at + 4).0)
}
