//! Element data turned into a value, and a value into data.
use super::element::{data_bytes, given_element, Data, Span};
use super::kind::{judge, Kind};
use super::{date, given, judge_edition, refuse, Answer};

#[derive(Clone, Copy, Debug, PartialEq, Eq)]
pub enum Value {
    Marker,
    Simple(u32),
    Size(u32, u32),
    Dates(Span),
    Words(u64),
}

/// "Turning lone element data into a value takes an edition and answers 1 first, then as for a given element".
pub fn value_of(edition: u64, identifier: u32, data: &[u8]) -> Answer<Value> {
    judge_edition(edition)?;
    let element = given_element(edition, identifier, data)?;
    Ok(match element.data {
        Data::Marker => Value::Marker,
        Data::Simple => Value::Simple(identifier),
        Data::Size { minimum, maximum } => Value::Size(minimum, maximum),
        Data::Dates(span) => Value::Dates(span),
        Data::Words(words) => Value::Words(words.len() as u64),
    })
}

/// "40 at 0 for a word list or a value that isn't of that identifier's kind (for a simple value: another identifier)"
fn data_of(kind: Kind, identifier: u32, value: &Value) -> Answer<Data> {
    match (kind, value) {
        (Kind::Marker, Value::Marker) => Ok(Data::Marker),
        (Kind::SimpleCondition | Kind::SimpleAction | Kind::SimpleException, Value::Simple(i)) if *i == identifier => {
            Ok(Data::Simple)
        }
        (Kind::Size, &Value::Size(minimum, maximum)) => Ok(Data::Size { minimum, maximum }),
        (Kind::Dates, &Value::Dates(span)) => Ok(Data::Dates(span)),
        _ => refuse(40, 0),
    }
}

fn judge_dates(data: &Data) -> Answer<()> {
    match data {
        Data::Dates(span) if !date::accepted(span.after) => refuse(43, 16),
        Data::Dates(span) if !date::accepted(span.before) => refuse(43, 32),
        _ => Ok(()),
    }
}

/// A value into data: 1, then 41 or 42, then 40, then 43, then 20; done, the bytes written.
pub fn put_value(edition: u64, identifier: u32, value: &Value, buffer: &mut [u8]) -> Answer<u64> {
    judge_edition(edition)?;
    let kind = given(judge(edition, identifier))?;
    let data = data_of(kind, identifier, value)?;
    judge_dates(&data)?;
    let bytes = data_bytes(&data);
    if bytes.len() > buffer.len() {
        return refuse(20, 0);
    }
    buffer[..bytes.len()].copy_from_slice(&bytes);
    Ok(bytes.len() as u64)
}
