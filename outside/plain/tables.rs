//! A deck in two lent tables.
use super::check::{check, Deck};
use super::step::{data_end, head_size, size_at, u16_in, u32_in, units};
use super::{Answer, Refused};

pub const RULE_WIDTH: usize = 5;
const ELEMENT_WIDTH: usize = 4;

fn fill(s: &[u8], deck: &Deck, rules: &mut [u32], elements: &mut [u32]) {
    let mut at = deck.rules_start();
    let mut element_rows = elements.chunks_exact_mut(ELEMENT_WIDTH);
    for (k, row) in rules.chunks_exact_mut(RULE_WIDTH).enumerate() {
        let start = at;
        let (name, enabled) = units(s, at + 4);
        let body = size_at(s, at) + 4;
        let count = u16_in(s, body);
        at = body + 2 + head_size(k);
        for (j, row) in element_rows.by_ref().take(count).enumerate() {
            if j > 0 {
                at += 2;
            }
            let identifier = u32_in(s, at);
            let data = at + 4;
            at = data_end(s, identifier, data);
            row.copy_from_slice(&[identifier, k as u32, data as u32, at as u32]);
        }
        row.copy_from_slice(&[start, at, name, count, enabled].map(|n| n as u32));
    }
}

pub fn read(edition: u64, s: &[u8], rules: &mut [u32], elements: &mut [u32]) -> Answer<usize> {
    let deck = check(edition, s)?;
    let (r, e) = (deck.rules, deck.elements);
    if rules.len() / RULE_WIDTH < r {
        return Err(Refused(14, 0));
    }
    if elements.len() / ELEMENT_WIDTH < e {
        return Err(Refused(14, 1));
    }
    fill(s, &deck, &mut rules[..RULE_WIDTH * r], &mut elements[..ELEMENT_WIDTH * e]);
    Ok(r)
}
