//! Identifiers: each in a deck of one rule with one element, in both editions, through the deck check.
use crate::baseline::deck::{check, write, One};
use crate::baseline::kind::{identifiers, judge};
use crate::baseline::random::{small_rule, Random};
use crate::baseline::{coded, DESK, STUDIO};
use crate::share::{hex, pieces, said};
use crate::{door, Outcome, Plan};

const PLACE: usize = 58;

/// The deck of document 01, whose identifier stands at 58 and is followed by 1, 0.
fn deck_of_one() -> Vec<u8> {
    write(One, &[small_rule(0x1F5, vec![0x41])])
}

/// The baseline's answer. Up to the identifier the deck is sound, so 9 and 10 stand there; for the
/// others, and for every value below 2^16, the whole deck is read.
fn expected(edition: u64, identifier: u32, deck: &[u8]) -> u64 {
    match judge(edition, identifier) {
        Err(r) if identifier >= 0x1_0000 => r.number + 256 * PLACE as u64,
        _ => coded(check(edition, deck)),
    }
}

fn compare(deck: &mut [u8], identifier: u32) -> Outcome {
    deck[PLACE..PLACE + 4].copy_from_slice(&identifier.to_le_bytes());
    for edition in [DESK, STUDIO] {
        let (archive, baseline) = (door::check(edition, deck), expected(edition, identifier, deck));
        if archive != baseline {
            let call = format!("check, edition {edition}, identifier {identifier:08X}, deck {}", hex(deck));
            return Err(said(&call, archive, baseline));
        }
    }
    Ok(2)
}

fn compare_each(values: impl Iterator<Item = u32>) -> Outcome {
    let mut deck = deck_of_one();
    let mut cases = 0;
    for identifier in values {
        cases += compare(&mut deck, identifier)?;
    }
    Ok(cases)
}

/// All values of 32 bits.
fn every() -> Outcome {
    pieces(1 << 12, |i| compare_each((0..1 << 20).map(|low| (i << 20) as u32 + low)))
}

/// The values with `byte` at byte number `at`: 256 pieces by another byte, of 2^16 each.
fn with_byte(at: usize, byte: u8, piece: usize, low: u32) -> u32 {
    let rest = [low as u8, (low >> 8) as u8, piece as u8];
    let mut bytes = [byte; 4];
    for (to, from) in (0..4).filter(|&i| i != at).zip(rest) {
        bytes[to] = from;
    }
    u32::from_le_bytes(bytes)
}

/// Which bytes the 35 have at which places: a value that differs from one of them in up to three bytes has one.
fn kept_bytes() -> Vec<(usize, u8)> {
    let mut kept = Vec::new();
    for identifier in identifiers() {
        for (at, &byte) in identifier.to_le_bytes().iter().enumerate() {
            if !kept.contains(&(at, byte)) && (at, byte) != (3, 0) {
                kept.push((at, byte));
            }
        }
    }
    kept
}

/// The values that differ from an identifier in the bytes a and b at most.
fn with_two(identifier: u32, a: usize, b: usize) -> impl Iterator<Item = u32> {
    (0..1u32 << 16).map(move |two| {
        let mut bytes = identifier.to_le_bytes();
        bytes[a] = two as u8;
        bytes[b] = (two >> 8) as u8;
        u32::from_le_bytes(bytes)
    })
}

const MILLION: usize = 1 << 20;

/// Every value below 2^16; every value that differs from one of the 35 in up to two bytes; a million random ones.
fn near(plan: &Plan) -> Outcome {
    let below = compare_each(0..1 << 16)?;
    let ids = identifiers();
    let pairs = [(0, 1), (0, 2), (0, 3), (1, 2), (1, 3), (2, 3)];
    let two = pieces(ids.len() * 6, |i| {
        let (a, b) = pairs[i % 6];
        compare_each(with_two(ids[i / 6], a, b))
    })?;
    let random = pieces(16, |i| {
        let mut random = Random::new(plan.seed + i as u64);
        compare_each((0..MILLION / 16).map(|_| random.next() as u32))
    })?;
    println!("compare: identifiers: {below} below 2^16, {two} by two bytes, {random} random");
    Ok(below + two + random)
}

/// Every value that differs from one of the 35 in up to three bytes.
fn farther() -> Outcome {
    let kept = kept_bytes();
    pieces(kept.len() * 256, |i| {
        let (at, byte) = kept[i / 256];
        compare_each((0..1 << 16).map(|low| with_byte(at, byte, i % 256, low)))
    })
}

/// By how many bytes a value may differ from one of the 35: 2, 3, or 4, which is all values of 32 bits.
pub fn all(plan: &Plan) -> Outcome {
    match plan.reach {
        4 => every(),
        3 => farther(),
        _ => near(plan),
    }
}
