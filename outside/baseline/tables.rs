//! Reading into lent tables, views of names and words, fixed fields.
use super::deck::{read, Deck, Fixed, RulePlace};
use super::element::ElementPlace;
use super::text::View;
use super::{refuse, Answer};

/// Numbers of a row.
pub const RULE_WIDTH: usize = 5;
pub const ELEMENT_WIDTH: usize = 4;

/// Start, end, first byte of the name's units, number of elements, offset of Enabled.
fn rule_row(place: &RulePlace) -> [u32; RULE_WIDTH] {
    [place.start, place.end, place.name.first, place.elements.len(), place.enabled].map(|n| n as u32)
}

fn rule_rows(deck: &Deck) -> Vec<u32> {
    deck.places.iter().flat_map(rule_row).collect()
}

fn element_row(identifier: u32, rule: usize, at: &ElementPlace) -> [u32; ELEMENT_WIDTH] {
    [identifier, rule as u32, at.start as u32, at.end as u32]
}

fn element_rows(deck: &Deck) -> Vec<u32> {
    let mut rows = Vec::new();
    for (k, (rule, place)) in deck.rules.iter().zip(&deck.places).enumerate() {
        for (element, at) in rule.elements.iter().zip(&place.elements) {
            rows.extend(element_row(element.identifier, k, at));
        }
    }
    rows
}

/// A read with tables: 14 last, rule table (0) first; "Later entries stay as they were."
pub fn fill(edition: u64, bytes: &[u8], rules: &mut [u32], elements: &mut [u32]) -> Answer<u64> {
    fill_from(&read(edition, bytes)?, rules, elements)
}

pub fn fill_from(deck: &Deck, rules: &mut [u32], elements: &mut [u32]) -> Answer<u64> {
    let (rule_rows, element_rows) = (rule_rows(deck), element_rows(deck));
    if rules.len() < rule_rows.len() {
        return refuse(14, 0);
    }
    if elements.len() < element_rows.len() {
        return refuse(14, 1);
    }
    rules[..rule_rows.len()].copy_from_slice(&rule_rows);
    elements[..element_rows.len()].copy_from_slice(&element_rows);
    Ok(deck.rules.len() as u64)
}

fn nth<T>(list: &[T], k: u64, place: u64) -> Answer<&T> {
    match list.get(usize::try_from(k).unwrap_or(usize::MAX)) {
        Some(x) => Ok(x),
        None => refuse(16, place),
    }
}

/// The part of the deck that is the name of rule k.
pub fn name(edition: u64, bytes: &[u8], k: u64) -> Answer<View> {
    name_in(&read(edition, bytes)?, k)
}

pub fn name_in(deck: &Deck, k: u64) -> Answer<View> {
    Ok(nth(&deck.places, k, 0)?.name)
}

/// The part that is word w of element e of rule k.
pub fn word(edition: u64, bytes: &[u8], k: u64, e: u64, w: u64) -> Answer<View> {
    word_in(&read(edition, bytes)?, k, e, w)
}

pub fn word_in(deck: &Deck, k: u64, e: u64, w: u64) -> Answer<View> {
    let rule = nth(&deck.places, k, 0)?;
    let element = nth(&rule.elements, e, 1)?;
    Ok(*nth(&element.words, w, 2)?)
}

/// The number and place of a view: done, its first byte.
pub fn first_byte(view: Answer<View>) -> Answer<u64> {
    view.map(|view| view.first as u64)
}

/// The bytes of a view: "a refused view is the empty part at the start".
pub fn part(bytes: &[u8], view: Answer<View>) -> &[u8] {
    match view {
        Ok(view) => &bytes[view.first..view.end],
        Err(_) => &bytes[..0],
    }
}

pub fn fixed(edition: u64, bytes: &[u8], k: u64) -> Answer<Fixed> {
    fixed_in(&read(edition, bytes)?, k)
}

pub fn fixed_in(deck: &Deck, k: u64) -> Answer<Fixed> {
    Ok(nth(&deck.rules, k, 0)?.fixed)
}
