//! Elements, rules, decks and faulty strings that the cases are made of.
use crate::baseline::deck::{Fixed, One, Rule, Two, Version};
use crate::baseline::edit::Edit;
use crate::baseline::element::{data_bytes, Data, Element, Span};
use crate::baseline::kind::{identifiers_of, row, Kind};
use crate::baseline::random::small_rule;
use crate::baseline::results;
use crate::baseline::tables::{ELEMENT_WIDTH, RULE_WIDTH};
use crate::baseline::text::{Form, Text};
use crate::baseline::value::value_of;
use crate::baseline::{coded, DESK, STUDIO};
use crate::call::*;
use crate::file::File;

pub const EDITIONS: [u64; 2] = [DESK, STUDIO];
pub const MOST: u64 = u64::MAX;

pub fn span(after: f64, before: f64) -> Span {
    Span { after_set: true, after: after.to_bits(), before_set: false, before: before.to_bits() }
}

/// An element of each identifier, with plain data.
pub fn element(identifier: u32) -> Element {
    let data = match row(identifier) {
        Some(Kind::Marker) => Data::Marker,
        Some(Kind::Size) => Data::Size { minimum: 9, maximum: 0x8000_0001 },
        Some(Kind::Dates) => Data::Dates(span(2.5, -1.25)),
        Some(Kind::WordList) => word_data(&[0, 1][..identifier as usize % 3], 0x41),
        _ => Data::Simple,
    };
    Element { identifier, data }
}

/// Words of so many units each, in the shortest form.
fn word_data(lengths: &[usize], unit: u16) -> Data {
    Data::Words(lengths.iter().map(|&n| Text::shortest(vec![unit; n])).collect())
}

pub fn words(lengths: &[usize]) -> Element {
    Element { identifier: 0x212, data: word_data(lengths, 0x263A) }
}

pub fn rule(units: usize, elements: Vec<Element>) -> Rule {
    let fixed = Fixed { signature: 0x0403_0201, on: units % 2 == 1, unknown: [0x11, 0x2222, 0x33_3333, MOST as u32] };
    Rule { fixed, name: Text::shortest((0..units as u16).map(|u| u.wrapping_mul(0x9E37)).collect()), elements }
}

/// The same rule, its name and words in the long form.
pub fn long(mut rule: Rule) -> Rule {
    rule.strings().into_iter().for_each(|text| text.form = Form::Long);
    rule
}

/// Data of an element with the faults that its kind may have: cuts at each place, more bytes, other numbers.
pub fn faulty_data(data: &[u8]) -> Vec<Vec<u8>> {
    let mut list: Vec<Vec<u8>> = (0..data.len()).map(|n| data[..n].to_vec()).collect();
    list.push([data, &[0]].concat());
    list.push([data, data].concat());
    for at in 0..data.len() {
        for value in [data[at] ^ 1, 0xFF, 0x41] {
            let mut other = data.to_vec();
            other[at] = value;
            list.push(other);
        }
    }
    list
}

/// Those of the strings that bring an answer, of `answer`, that none before brought.
pub fn each_answer(strings: Vec<Vec<u8>>, answer: impl Fn(&[u8]) -> u64) -> Vec<Vec<u8>> {
    let mut seen = Vec::new();
    let mut kept = Vec::new();
    for bytes in strings {
        let a = answer(&bytes);
        if !seen.contains(&a) {
            seen.push(a);
            kept.push(bytes);
        }
    }
    kept
}

pub fn value_answer(edition: u64, identifier: u32, data: &[u8]) -> u64 {
    coded(value_of(edition, identifier, data).map(|_| 0))
}

/// An element of each kind's shape, for the faults.
pub fn shapes() -> Vec<Element> {
    let list = words(&[1, 0, 2]);
    vec![element(0x64), element(0xF5), element(0x14F), element(0x1F4), element(0x20C), element(0xE1), list]
}

pub fn every_kind(edition: u64) -> Vec<Rule> {
    let all = identifiers_of(edition);
    all.chunks(12).zip(0..).map(|(some, n)| rule(n, some.iter().map(|&i| element(i)).collect())).collect()
}

/// The deck with every cut, bytes left over, and damages of a single byte.
pub fn faulty_decks(deck: &[u8]) -> Vec<Vec<u8>> {
    let mut list: Vec<Vec<u8>> = (0..=deck.len()).map(|n| deck[..n].to_vec()).collect();
    list.extend([[deck, &[0]].concat(), [deck, &[1, 2, 3]].concat()]);
    for at in 0..deck.len() {
        for value in [deck[at] ^ 1, deck[at] ^ 0x80, 0xFF, 0, 0xF5, 0x41] {
            let mut other = deck.to_vec();
            other[at] = value;
            list.push(other);
        }
    }
    list
}

pub fn sample_decks() -> Vec<Vec<Rule>> {
    vec![
        vec![small_rule(0x1F5, vec![0x41])],
        every_kind(DESK),
        every_kind(STUDIO),
        vec![
            rule(255, vec![words(&[0, 1])]),
            rule(254, vec![words(&[254]), words(&[255, 2])]),
            rule(0, vec![words(&[])]),
        ],
    ]
}

/// A deck in a buffer that is longer by so many bytes, none of them zero.
pub fn buffered(deck: &[u8], more: usize) -> Vec<u8> {
    let tail = (0..more).map(|i| 0xC0 + (i % 7) as u8);
    deck.iter().copied().chain(tail).collect()
}

pub fn units(n: usize) -> Vec<u8> {
    (0..2 * n).map(|i| (i % 10 * 7 + 1) as u8).collect()
}

/// Three rules; the last ends with a word list where the edition has one.
pub fn three_rules(edition: u64) -> Vec<Rule> {
    let last =
        if edition == STUDIO { vec![element(0xC9), words(&[2, 0])] } else { vec![element(0xC9), element(0x14A)] };
    vec![rule(1, vec![element(0x64)]), rule(2, vec![element(0x12D), element(0xDE)]), rule(3, last)]
}

pub fn two_rules(edition: u64) -> Vec<Rule> {
    let first = if edition == STUDIO { element(0xE1) } else { element(0xE3) };
    vec![rule(5, vec![first]), rule(4, vec![element(0x152), element(0x64)])]
}

pub fn first_fixed() -> Fixed {
    Fixed { signature: 0xDEAD_BEEF, on: true, unknown: [1, 2, 3, 0x8000_0000] }
}

pub fn add_rule(name: Vec<u8>, identifier: u32, data: Vec<u8>) -> Edit {
    Edit::AddRule { name, fixed: first_fixed(), identifier, data }
}

pub fn simple_rule(name: Vec<u8>) -> Edit {
    add_rule(name, 0xC8, data_bytes(&Data::Simple))
}

pub fn edit(file: &mut File, edition: u64, deck: &[u8], more: usize, what: &Edit) -> u64 {
    file.add(of_edit(edition, &buffered(deck, more), deck.len() as u64, what)).0
}

/// A deck into a buffer, to that version.
pub fn convert(file: &mut File, to: Version, edition: u64, deck: &[u8], buffer: &[u8]) -> (u64, Vec<u8>) {
    let call = match to {
        Two => TO_2,
        One => TO_1,
    };
    file.add(Call { call, numbers: vec![edition], bytes: vec![buffer.to_vec(), deck.to_vec()] })
}

/// The call of a table that has just the room it needs.
pub fn kind(file: &mut File, edition: u64, identifier: u64) {
    file.call(KIND, &[edition, identifier, results::KIND as u64], &[]);
}

pub fn moment(file: &mut File, bits: u64) {
    file.call(MOMENT, &[bits, results::MOMENT as u64], &[]);
}

pub fn value(file: &mut File, edition: u64, identifier: u32, data: &[u8]) {
    file.call(VALUE, &[edition, u64::from(identifier), results::VALUE as u64], &[data]);
}

/// The room that so many rules and elements take.
pub fn table_rooms(rules: usize, elements: usize) -> (u64, u64) {
    ((RULE_WIDTH * rules) as u64, (ELEMENT_WIDTH * elements) as u64)
}

/// A view, and its part in a table.
pub fn name(file: &mut File, edition: u64, deck: &[u8], k: u64) {
    file.call(NAME, &[edition, k], &[deck]);
    file.call(NAME_PART, &[edition, k, results::PART as u64], &[deck]);
}

pub fn word(file: &mut File, edition: u64, deck: &[u8], [k, e, w]: [u64; 3]) {
    file.call(WORD, &[edition, k, e, w], &[deck]);
    file.call(WORD_PART, &[edition, k, e, w, results::PART as u64], &[deck]);
}

/// The same call with a table that has no room, one number too few, and one more than it needs.
pub fn other_rooms(file: &mut File, call: u8, numbers: &[u64], room: usize, bytes: &[&[u8]]) {
    for room in [0, room - 1, room + 1] {
        file.call(call, &[numbers, &[room as u64]].concat(), bytes);
    }
}
