//! Faults of a String's form.
use crate::baseline::deck::{check, read, write, One, Rule, RulePlace};
use crate::baseline::edit::Edit;
use crate::baseline::element::Data;
use crate::baseline::text::{Form, Text, View};
use crate::baseline::{coded, STUDIO};
use crate::fault;

fn views(rule: &RulePlace) -> Vec<View> {
    let words = rule.elements.iter().flat_map(|element| element.words.clone());
    std::iter::once(rule.name).chain(words).collect()
}

/// Where the first String of fewer than 255 units in the long form stands.
fn first_long(deck: &[u8]) -> Option<usize> {
    let places = read(STUDIO, deck).ok()?.places;
    let long = |view: &View| view.form == Form::Long && view.end - view.first < 510;
    places.iter().flat_map(views).find(long).map(|view| view.first - 3)
}

/// The units of the String in the long form at a place, as its length says.
fn units_at(deck: &[u8], at: usize) -> usize {
    usize::from(deck[at + 1]) + 256 * usize::from(deck[at + 2])
}

/// The check as though the String at that place had one unit less than its 256.
fn without_unit(edition: u64, deck: &[u8], at: usize) -> u64 {
    let rest = deck.get(at + 5..).unwrap_or(&[]);
    coded(check(edition, &[&deck[..at], &[0xFF, 0xFF, 0], rest].concat()))
}

/// What a check with a fault says, where one without says `answer`.
pub fn checked(edition: u64, deck: &[u8], answer: u64) -> u64 {
    let at = (answer / 256) as usize;
    match (fault(), answer % 256) {
        (29, 7) if units_at(deck, at) == 256 => without_unit(edition, deck, at), // 256 units taken
        (30, 0) => first_long(deck).map_or(answer, |at| 7 + 256 * at as u64),    // the long form for 255 units alone
        (34, 7) if at + 3 + 2 * units_at(deck, at) > deck.len() => answer - 4,   // 3 before 7
        _ => answer,
    }
}

/// The last so many Strings of a rule lose the long form.
fn shorten(rule: &mut Rule, many: usize) {
    for text in rule.strings().into_iter().rev().take(many) {
        *text = Text::shortest(std::mem::take(&mut text.units));
    }
}

fn words_of(data: &Data) -> usize {
    match data {
        Data::Words(words) => words.len(),
        _ => 0,
    }
}

/// The rules that an edit with a fault makes, from those before it and those that one without makes.
fn faulty(old: &[Rule], mut new: Vec<Rule>, what: &Edit) -> Option<Vec<Rule>> {
    let last = new.len().checked_sub(1)?;
    match (fault(), what) {
        (27, Edit::Insert { k, .. }) => shorten(&mut new[*k as usize], usize::MAX), // forms lost
        (28, Edit::Rename { k, .. }) if old[*k as usize].name.form == Form::Long => {
            new[*k as usize].name.form = Form::Long; // the form that stood there
        }
        (32, Edit::AddWord { .. }) => {
            let many = new[last].elements.last().map_or(0, |element| words_of(&element.data));
            shorten(&mut new[last], many); // the words before it, too
        }
        (33, Edit::AddRule { .. }) => shorten(&mut new[last], usize::MAX), // given data in other forms
        _ => return None,
    }
    Some(new)
}

/// What an edit of the deck `old` with a fault leaves and says, where one without leaves the buffer so and says `answer`.
pub fn left(buffer: &mut [u8], old: &[u8], what: &Edit, answer: u64) -> u64 {
    let new = (answer / 256) as usize;
    if fault() < 27 || answer % 256 != 0 {
        return answer;
    }
    let rules = |deck| read(STUDIO, deck).map_or(Vec::new(), |deck| deck.rules);
    let version = |deck| read(STUDIO, deck).map_or(One, |deck| deck.version);
    match faulty(&rules(old), rules(&buffer[..new]), what).map(|rules| write(version(old), &rules)) {
        Some(deck) if deck.len() <= buffer.len() => {
            buffer[..deck.len()].copy_from_slice(&deck);
            256 * deck.len() as u64
        }
        _ => answer,
    }
}
