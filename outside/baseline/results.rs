//! Results that are more than a place, in lent tables of numbers: each from the table's start, later numbers as
//! they were, place 0. A table that is too small is 14 at 0, after all other refusals.
use super::date::{civil, Civil};
use super::deck::{read, Deck};
use super::element::Span;
use super::kind::{alone, judge, role};
use super::tables::{fixed_in, name_in, word_in};
use super::text::View;
use super::value::{self, value_of, Value};
use super::{given, judge_edition, refuse, Answer};

/// How many numbers of room each table has.
pub const KIND: usize = 2;
pub const FIELDS: usize = 6;
pub const PART: usize = 3;
pub const MOMENT: usize = 4;
pub const VALUE: usize = 5;

fn lay<T: Copy>(table: &mut [T], room: usize, numbers: &[T]) -> Answer<u64> {
    if table.len() < room {
        return refuse(14, 0);
    }
    table[..numbers.len()].copy_from_slice(numbers);
    Ok(0)
}

/// The row of the kinds, from 0 in the table's order; the role: 0 none, 1 condition, 2 action, 3 exception.
pub fn kind(edition: u64, identifier: u32, table: &mut [u32]) -> Answer<u64> {
    let row = alone(edition, identifier)?;
    lay(table, KIND, &[row as u32, role(row, identifier) as u32])
}

/// Signature with Unknown1, Enabled, Unknown2 to Unknown5.
pub fn fields(edition: u64, bytes: &[u8], k: u64, table: &mut [u32]) -> Answer<u64> {
    fields_in(&read(edition, bytes)?, k, table)
}

pub fn fields_in(deck: &Deck, k: u64, table: &mut [u32]) -> Answer<u64> {
    let fixed = fixed_in(deck, k)?;
    let [u2, u3, u4, u5] = fixed.unknown;
    lay(table, FIELDS, &[fixed.signature, u32::from(fixed.on), u2, u3, u4, u5])
}

/// First byte and number of bytes of a view, and the form that the String has there: 0 short, 1 long.
fn part(view: View) -> [u32; PART] {
    [view.first as u32, (view.end - view.first) as u32, view.form as u32]
}

pub fn name_part(edition: u64, bytes: &[u8], k: u64, table: &mut [u32]) -> Answer<u64> {
    name_part_in(&read(edition, bytes)?, k, table)
}

pub fn name_part_in(deck: &Deck, k: u64, table: &mut [u32]) -> Answer<u64> {
    lay(table, PART, &part(name_in(deck, k)?))
}

/// `numbers`: those of rule, element and word.
pub fn word_part(edition: u64, bytes: &[u8], numbers: [u64; 3], table: &mut [u32]) -> Answer<u64> {
    word_part_in(&read(edition, bytes)?, numbers, table)
}

pub fn word_part_in(deck: &Deck, [k, e, w]: [u64; 3], table: &mut [u32]) -> Answer<u64> {
    lay(table, PART, &part(word_in(deck, k, e, w)?))
}

/// Year, month, day, second of the day.
pub fn moment(bits: u64, table: &mut [u32]) -> Answer<u64> {
    let Civil { year, month, day, second } = civil(bits)?;
    lay(table, MOMENT, &[year as u32, month as u32, day as u32, second as u32])
}

/// The case of a value, then what it holds.
pub fn numbers_of(value: &Value) -> Vec<u64> {
    match *value {
        Value::Marker => vec![0],
        Value::Simple(identifier) => vec![1, u64::from(identifier)],
        Value::Size(minimum, maximum) => vec![2, u64::from(minimum), u64::from(maximum)],
        Value::Dates(s) => vec![3, u64::from(s.after_set), u64::from(s.before_set), s.after, s.before],
        Value::Words(count) => vec![4, count],
    }
}

/// Always five numbers of room; what a case lacks stays as it was.
pub fn value(edition: u64, identifier: u32, data: &[u8], table: &mut [u64]) -> Answer<u64> {
    lay(table, VALUE, &numbers_of(&value_of(edition, identifier, data)?))
}

fn flag(number: u64) -> Option<bool> {
    match number {
        0 => Some(false),
        1 => Some(true),
        _ => None,
    }
}

/// The value that a table says, if it says one: what its case lacks is not looked at, nor is what follows the fifth.
pub fn value_from(table: &[u64]) -> Option<Value> {
    let small = |number: u64| u32::try_from(number).ok();
    Some(match *table {
        [0, _, _, _, _, ..] => Value::Marker,
        [1, identifier, _, _, _, ..] => Value::Simple(small(identifier)?),
        [2, minimum, maximum, _, _, ..] => Value::Size(small(minimum)?, small(maximum)?),
        [3, a, b, after, before, ..] => Value::Dates(Span { after_set: flag(a)?, after, before_set: flag(b)?, before }),
        [4, count, _, _, _, ..] => Value::Words(count),
        _ => return None,
    })
}

/// A value, said by a table, into data: a table that says none "isn't of that identifier's kind".
pub fn put_value(edition: u64, identifier: u32, table: &[u64], buffer: &mut [u8]) -> Answer<u64> {
    judge_edition(edition)?;
    given(judge(edition, identifier))?;
    match value_from(table) {
        None => refuse(40, 0),
        Some(value) => value::put_value(edition, identifier, &value, buffer),
    }
}
