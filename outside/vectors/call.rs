//! The calls that a vector may ask for, run over the baseline.
use crate::baseline::convert::convert;
use crate::baseline::deck::{check, Fixed, One, Two};
use crate::baseline::edit::{edit, start, Edit};
use crate::baseline::results;
use crate::baseline::tables::{fill, first_byte, name, part, word};
use crate::baseline::text::View;
use crate::baseline::{coded, Answer};

pub const BASE: u8 = 0;
pub const KIND: u8 = 1;
pub const VALUE: u8 = 2;
pub const PUT_VALUE: u8 = 3;
pub const MOMENT: u8 = 4;
pub const CHECK: u8 = 5;
pub const READ: u8 = 6;
pub const NAME: u8 = 7;
pub const WORD: u8 = 8;
pub const FIELDS: u8 = 9;
pub const START: u8 = 10;
pub const SWITCH: u8 = 11;
pub const RENAME: u8 = 12;
pub const REMOVE: u8 = 13;
pub const INSERT: u8 = 14;
pub const ADD_RULE: u8 = 15;
pub const ADD_ELEMENT: u8 = 16;
pub const ADD_WORD: u8 = 17;
pub const NAME_PART: u8 = 18;
pub const WORD_PART: u8 = 19;
pub const TO_2: u8 = 20;
pub const TO_1: u8 = 21;

/// The most numbers of a lent table.
pub const MOST_ROOM: u64 = 2048;

/// What a table holds before its call, in each number: of 32 bits, of 64 bits.
const AS_FOUND: u32 = 0xA5A5_A5A5;
const WIDE_AS_FOUND: u64 = 0xA5A5_A5A5_A5A5_A5A5;

#[derive(Clone, Debug)]
pub struct Call {
    pub call: u8,
    pub numbers: Vec<u64>,
    pub bytes: Vec<Vec<u8>>,
}

/// A table as it is before its call.
fn found<T: Clone>(number: T, room: u64) -> Vec<T> {
    assert!(room <= MOST_ROOM, "a table of {room} numbers");
    vec![number; room as usize]
}

fn listed(table: &[u32]) -> Vec<u8> {
    table.iter().flat_map(|n| n.to_le_bytes()).collect()
}

/// The answer of a call that fills a table of so many numbers, and the whole table.
fn filled(room: u64, call: impl Fn(&mut [u32]) -> Answer<u64>) -> (u64, Vec<u8>) {
    let mut table = found(AS_FOUND, room);
    (coded(call(&mut table)), listed(&table))
}

fn value(edition: u64, identifier: u32, data: &[u8], room: u64) -> (u64, Vec<u8>) {
    let mut table = found(WIDE_AS_FOUND, room);
    let answer = coded(results::value(edition, identifier, data, &mut table));
    (answer, table.iter().flat_map(|n| n.to_le_bytes()).collect())
}

fn read(edition: u64, deck: &[u8], rules: u64, elements: u64) -> (u64, Vec<u8>) {
    let (mut r, mut e) = (found(AS_FOUND, rules), found(AS_FOUND, elements));
    let answer = coded(fill(edition, deck, &mut r, &mut e));
    (answer, [listed(&r), listed(&e)].concat())
}

/// The answer of a view, and its bytes.
fn shown(deck: &[u8], view: Answer<View>) -> (u64, Vec<u8>) {
    (coded(first_byte(view)), part(deck, view).to_vec())
}

/// The edit that a call asks for.
fn wanted(call: &Call) -> Edit {
    let (n, b) = (&call.numbers, &call.bytes);
    match call.call {
        SWITCH => Edit::Switch { k: n[2], on: n[3] == 1 },
        RENAME => Edit::Rename { k: n[2], name: b[1].clone() },
        REMOVE => Edit::Remove { k: n[2] },
        INSERT => Edit::Insert { k: n[2], second: b[1].clone(), j: n[3] },
        ADD_RULE => {
            let unknown = [n[4] as u32, n[5] as u32, n[6] as u32, n[7] as u32];
            let fixed = Fixed { signature: n[2] as u32, on: n[3] == 1, unknown };
            Edit::AddRule { name: b[1].clone(), fixed, identifier: n[8] as u32, data: b[2].clone() }
        }
        ADD_ELEMENT => Edit::AddElement { identifier: n[2] as u32, data: b[1].clone() },
        ADD_WORD => Edit::AddWord { word: b[1].clone() },
        other => panic!("no such call: {other}"),
    }
}

/// The call for an edit of a buffer.
pub fn of_edit(edition: u64, buffer: &[u8], length: u64, edit: &Edit) -> Call {
    let mut bytes = vec![buffer.to_vec()];
    let mut numbers = vec![edition, length];
    let call = match edit {
        Edit::Switch { k, on } => {
            numbers.extend([*k, u64::from(*on)]);
            SWITCH
        }
        Edit::Rename { k, name } => {
            numbers.push(*k);
            bytes.push(name.clone());
            RENAME
        }
        Edit::Remove { k } => {
            numbers.push(*k);
            REMOVE
        }
        Edit::Insert { k, second, j } => {
            numbers.extend([*k, *j]);
            bytes.push(second.clone());
            INSERT
        }
        Edit::AddRule { name, fixed, identifier, data } => {
            numbers.extend([u64::from(fixed.signature), u64::from(fixed.on)]);
            numbers.extend(fixed.unknown.map(u64::from));
            numbers.push(u64::from(*identifier));
            bytes.extend([name.clone(), data.clone()]);
            ADD_RULE
        }
        Edit::AddElement { identifier, data } => {
            numbers.push(u64::from(*identifier));
            bytes.push(data.clone());
            ADD_ELEMENT
        }
        Edit::AddWord { word } => {
            bytes.push(word.clone());
            ADD_WORD
        }
    };
    Call { call, numbers, bytes }
}

/// What the baseline answers, and the effect.
pub fn run(call: &Call) -> (u64, Vec<u8>) {
    let (n, b) = (&call.numbers, &call.bytes);
    match call.call {
        BASE => (0, Vec::new()),
        KIND => filled(n[2], |t| results::kind(n[0], n[1] as u32, t)),
        VALUE => value(n[0], n[1] as u32, &b[0], n[2]),
        MOMENT => filled(n[1], |t| results::moment(n[0], t)),
        CHECK => (coded(check(n[0], &b[0])), Vec::new()),
        READ => read(n[0], &b[0], n[1], n[2]),
        NAME => shown(&b[0], name(n[0], &b[0], n[1])),
        WORD => shown(&b[0], word(n[0], &b[0], n[1], n[2], n[3])),
        FIELDS => filled(n[2], |t| results::fields(n[0], &b[0], n[1], t)),
        NAME_PART => filled(n[2], |t| results::name_part(n[0], &b[0], n[1], t)),
        WORD_PART => filled(n[4], |t| results::word_part(n[0], &b[0], [n[1], n[2], n[3]], t)),
        _ => on_buffer(call),
    }
}

/// The calls that leave a buffer: the effect is the whole of it.
fn on_buffer(call: &Call) -> (u64, Vec<u8>) {
    let n = &call.numbers;
    let mut buffer = call.bytes[0].clone();
    let answer = match call.call {
        START => start(&mut buffer),
        PUT_VALUE => results::put_value(n[0], n[1] as u32, &n[2..], &mut buffer),
        TO_2 => convert(Two, n[0], &call.bytes[1], &mut buffer),
        TO_1 => convert(One, n[0], &call.bytes[1], &mut buffer),
        _ => edit(n[0], &mut buffer, n[1], &wanted(call)),
    };
    (coded(answer), buffer)
}
