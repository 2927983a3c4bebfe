//! Faults of a deck's version and of its index.
use crate::baseline::coded;
use crate::baseline::deck::{check, read, write, Deck, One, Two, Version, HEADER, MARK, MOST_BYTES};
use crate::baseline::edit::{edited, Edit};
use crate::baseline::STUDIO;
use crate::fault;
use crate::RULE_WIDTH;

/// The number of rules of a deck that has offsets, by its first bytes; else none.
fn offsets(deck: &[u8]) -> usize {
    match deck {
        [_, _, _, 2, 0, low, high, ..] => usize::from(*low) + 256 * usize::from(*high),
        _ => 0,
    }
}

/// The check of a deck as though its offsets said what they have to, and it had so many rules.
fn unjudged(edition: u64, deck: &[u8], rules: usize) -> u64 {
    let index = Two.index(offsets(deck));
    let count = (rules as u16).to_le_bytes();
    let plain = [&MARK[..], &[1, 0], &count, &deck[HEADER + index..]].concat();
    match coded(check(edition, &plain)) {
        done if done % 256 == 0 => done,
        refused => refused + 256 * index as u64,
    }
}

/// Where rule k starts, if those before it are sound.
fn start_of(edition: u64, deck: &[u8], k: usize) -> u64 {
    match unjudged(edition, deck, k) {
        over if over % 256 == 13 => over / 256,
        _ => deck.len() as u64,
    }
}

/// What a check with a fault says, where one without says `answer`.
pub fn checked(edition: u64, deck: &[u8], answer: u64) -> u64 {
    let k = ((answer / 256) as usize).saturating_sub(HEADER) / 4;
    match (fault(), answer % 256) {
        (35, 0) if offsets(deck) > 1 => 29 + 256 * (HEADER as u64 + 4), // against the start of the rule before
        (36, 29) => unjudged(edition, deck, offsets(deck)),             // offsets not judged
        (37, 29) => 29 + 256 * start_of(edition, deck, k),              // at the rule
        (38, 29) => match unjudged(edition, deck, k + 1) {
            inside if inside % 256 != 0 && inside % 256 != 13 => inside, // its rule's fault first
            _ => answer,
        },
        (39, 5) => coded(check(edition, &[&deck[..4], &[0], &deck[5..]].concat())), // the version's low byte alone
        _ => answer,
    }
}

/// The places of a read's rows without the index.
pub fn faulty_rows(deck: &[u8], rules: &mut [u32]) {
    if fault() == 40 {
        let index = Two.index(offsets(deck)) as u32;
        rules.chunks_exact_mut(RULE_WIDTH).take(offsets(deck)).for_each(|row| row[0] -= index);
    }
}

/// Every offset becomes less by so many bytes.
fn lower(deck: &mut [u8], by: u32) {
    let n = offsets(deck);
    for offset in deck[HEADER..].chunks_exact_mut(4).take(n) {
        let place = u32::from_le_bytes([offset[0], offset[1], offset[2], offset[3]]);
        offset.copy_from_slice(&(place - by).to_le_bytes());
    }
}

/// Some offsets as they were in the old deck.
fn keep(buffer: &mut [u8], old: &[u8], from: usize, to: usize) {
    let kept = HEADER + 4 * from..HEADER + 4 * to;
    buffer[kept.clone()].copy_from_slice(&old[kept]);
}

/// What an edit with a fault does to a deck of version 2 that one without left so.
fn faulty(buffer: &mut [u8], old: &[u8], what: &Edit, new: usize) {
    let n = offsets(buffer);
    match (fault(), what) {
        (41, Edit::Rename { k, .. }) => keep(buffer, old, *k as usize + 1, n), // those behind the edited rule
        (42, Edit::AddRule { .. } | Edit::Insert { .. }) => lower(buffer, 4),  // not the 4 bytes of an offset more
        (43, Edit::Remove { k }) => keep(buffer, old, 0, *k as usize),         // those before the removed rule
        (44, Edit::Remove { .. }) => buffer[new..new + 4].copy_from_slice(&old[new..new + 4]), // 4 zeros too few
        _ => {}
    }
}

/// The deck of these rules laid in the buffer; its length.
fn lay(buffer: &mut [u8], deck: &[u8]) -> u64 {
    buffer[..deck.len()].copy_from_slice(deck);
    256 * deck.len() as u64
}

/// An edit that is refused by 19, done where the deck has 60,000 bytes without its index.
fn without_index(edition: u64, buffer: &mut [u8], old: &[u8], what: &Edit) -> u64 {
    let rules = read(edition, old).and_then(|deck| edited(edition, deck.rules, what)).unwrap_or_default();
    let deck = write(Two, &rules);
    if deck.len() > buffer.len() || deck.len() - Two.index(rules.len()) > MOST_BYTES {
        return 19;
    }
    lay(buffer, &deck)
}

/// An insert by which the deck gets the second one's version.
fn with_other(buffer: &mut [u8], second: &[u8], new: usize) -> Option<u64> {
    let other = read(STUDIO, second).ok()?.version;
    let deck = write(other, &read(STUDIO, &buffer[..new]).ok()?.rules);
    (deck.len() <= buffer.len()).then(|| lay(buffer, &deck))
}

/// What an edit of the deck `old` with a fault leaves and says, where one without leaves the buffer so and says `answer`.
pub fn left(edition: u64, buffer: &mut [u8], old: &[u8], what: &Edit, answer: u64) -> u64 {
    let new = (answer / 256) as usize;
    match (fault(), answer % 256, what) {
        (41..=44, 0, _) if offsets(old) > 0 => faulty(buffer, old, what, new),
        (45, 19, _) if offsets(old) > 0 => return without_index(edition, buffer, old, what),
        (46, 0, Edit::Insert { second, .. }) => return with_other(buffer, second, new).unwrap_or(answer),
        (47, 61, _) => return answer - 32, // as though it were the first deck's
        _ => {}
    }
    answer
}

/// What a conversion with a fault leaves and says, where one without leaves the buffer so and says `answer`.
pub fn converted(to: Version, edition: u64, deck: &[u8], buffer: &mut [u8], answer: u64) -> u64 {
    let new = (answer / 256) as usize;
    match (fault(), answer % 256, to) {
        (48, 0, One) => buffer[3] = 2, // the version that it had
        (49, 0, Two) => {
            let index = Two.index(offsets(buffer));
            lower(buffer, index as u32); // places in the deck that it was
        }
        (50, 19, _) if (59_000..MOST_BYTES).contains(&buffer.len()) => return 20, // 20 before 19
        (51, 0, _) => buffer[new..].fill(0),                                      // bytes past the new deck
        (52, 5, _) => return copied(edition, deck, buffer).unwrap_or(answer),     // a deck that has the version already
        _ => {}
    }
    answer
}

fn copied(edition: u64, deck: &[u8], buffer: &mut [u8]) -> Option<u64> {
    let Deck { version, rules, .. } = read(edition, deck).ok()?;
    (deck.len() <= buffer.len()).then(|| lay(buffer, &write(version, &rules)))
}
