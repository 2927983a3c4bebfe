//! Elements: an identifier and its data.
use super::kind::{judge, Kind};
use super::reader::{write_word, Reader};
use super::text::{write_string, Text, View};
use super::{date, given, refuse, Answer, Refusal};

#[derive(Clone, Copy, Debug, PartialEq, Eq)]
pub struct Span {
    pub after_set: bool,
    pub after: u64,
    pub before_set: bool,
    pub before: u64,
}

#[derive(Clone, Debug, PartialEq, Eq)]
pub enum Data {
    Marker,
    Simple,
    Size { minimum: u32, maximum: u32 },
    Dates(Span),
    Words(Vec<Text>),
}

#[derive(Clone, Debug, PartialEq, Eq)]
pub struct Element {
    pub identifier: u32,
    pub data: Data,
}

/// Where an element's data stands, and its words.
#[derive(Clone, Debug, PartialEq, Eq)]
pub struct ElementPlace {
    pub start: usize,
    pub end: usize,
    pub words: Vec<View>,
}

fn read_date(r: &mut Reader) -> Answer<u64> {
    let start = r.here();
    let bits = r.number(8)?;
    if date::accepted(bits) {
        Ok(bits)
    } else {
        refuse(11, start)
    }
}

/// "1, 0, flag, 0, after date, flag, 0, before date"
fn read_span(r: &mut Reader) -> Answer<Span> {
    r.constant(1)?;
    r.constant(0)?;
    let after_set = r.flag()?;
    r.constant(0)?;
    let after = read_date(r)?;
    let before_set = r.flag()?;
    r.constant(0)?;
    let before = read_date(r)?;
    Ok(Span { after_set, after, before_set, before })
}

/// "4-byte count 0 to 64, then the words"; a word "is 4 zero bytes and a String".
fn read_words(r: &mut Reader, places: &mut Vec<View>) -> Answer<Vec<Text>> {
    let count = r.count(4, 0, 64)?;
    let mut words = Vec::new();
    for _ in 0..count {
        r.constant(0)?;
        let (word, place) = r.string()?;
        places.push(place);
        words.push(word);
    }
    Ok(words)
}

fn read_kind(r: &mut Reader, kind: Kind, places: &mut Vec<View>) -> Answer<Data> {
    if kind == Kind::WordList {
        return Ok(Data::Words(read_words(r, places)?));
    }
    if kind == Kind::Dates {
        return Ok(Data::Dates(read_span(r)?));
    }
    r.constant(1)?;
    r.constant(0)?;
    match kind {
        Kind::Marker => r.constant(1).map(|()| Data::Marker),
        Kind::Size => Ok(Data::Size { minimum: r.word()?, maximum: r.word()? }),
        _ => Ok(Data::Simple),
    }
}

/// An element of a deck.
pub fn read_element(r: &mut Reader, edition: u64) -> Answer<(Element, ElementPlace)> {
    let at = r.here();
    let identifier = r.word()?;
    let kind = judge(edition, identifier).map_err(|e| Refusal { number: e.number, place: at })?;
    let start = r.at;
    let mut words = Vec::new();
    let data = read_kind(r, kind, &mut words)?;
    Ok((Element { identifier, data }, ElementPlace { start, end: r.at, words }))
}

/// A given element, in an edition that is one: 41 or 42 at 0, then the faults of its data, then 45.
pub fn given_element(edition: u64, identifier: u32, data: &[u8]) -> Answer<Element> {
    given(lone_element(edition, identifier, data))
}

fn lone_element(edition: u64, identifier: u32, bytes: &[u8]) -> Answer<Element> {
    let kind = judge(edition, identifier)?;
    let mut r = Reader::new(bytes);
    let data = read_kind(&mut r, kind, &mut Vec::new())?;
    if r.at < bytes.len() {
        return refuse(13, r.here());
    }
    Ok(Element { identifier, data })
}

pub fn write_data(out: &mut Vec<u8>, data: &Data) {
    match data {
        Data::Marker => [1, 0, 1].iter().for_each(|&n| write_word(out, n)),
        Data::Simple => [1, 0].iter().for_each(|&n| write_word(out, n)),
        Data::Size { minimum, maximum } => [1, 0, *minimum, *maximum].iter().for_each(|&n| write_word(out, n)),
        Data::Dates(span) => {
            [1, 0, u32::from(span.after_set), 0].iter().for_each(|&n| write_word(out, n));
            out.extend_from_slice(&span.after.to_le_bytes());
            [u32::from(span.before_set), 0].iter().for_each(|&n| write_word(out, n));
            out.extend_from_slice(&span.before.to_le_bytes());
        }
        Data::Words(words) => {
            write_word(out, words.len() as u32);
            for word in words {
                write_word(out, 0);
                write_string(out, word);
            }
        }
    }
}

pub fn data_bytes(data: &Data) -> Vec<u8> {
    let mut out = Vec::new();
    write_data(&mut out, data);
    out
}
