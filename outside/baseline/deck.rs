//! The deck: read into a list of rules with their places, and written from the list.
use super::element::{read_element, write_data, Data, Element, ElementPlace};
use super::reader::{write_word, Reader};
use super::text::{write_string, Text, View};
use super::{judge_edition, refuse, Answer};

/// "A rule's fixed fields (signature with Unknown1, Enabled, Unknown2 to Unknown5)".
#[derive(Clone, Copy, Debug, PartialEq, Eq)]
pub struct Fixed {
    pub signature: u32,
    pub on: bool,
    pub unknown: [u32; 4],
}

#[derive(Clone, Debug, PartialEq, Eq)]
pub struct Rule {
    pub fixed: Fixed,
    pub name: Text,
    pub elements: Vec<Element>,
}

impl Rule {
    /// Its name, then its words.
    pub fn strings(&mut self) -> Vec<&mut Text> {
        let words = self.elements.iter_mut().flat_map(|element| match &mut element.data {
            Data::Words(words) => words.iter_mut(),
            _ => [].iter_mut(),
        });
        std::iter::once(&mut self.name).chain(words).collect()
    }
}

/// Where a rule stands: start and end, its name, Enabled, and its elements.
#[derive(Clone, Debug, PartialEq, Eq)]
pub struct RulePlace {
    pub start: usize,
    pub end: usize,
    pub name: View,
    pub enabled: usize,
    pub elements: Vec<ElementPlace>,
}

/// "Version 2 has, after the number of rules, one 4-byte offset per rule, counted from the deck's start".
#[derive(Clone, Copy, Debug, PartialEq, Eq)]
pub enum Version {
    One = 1,
    Two,
}

pub use Version::{One, Two};

impl Version {
    pub const ALL: [Version; 2] = [One, Two];

    pub fn other(self) -> Version {
        match self {
            One => Two,
            Two => One,
        }
    }

    /// How many offsets a deck of so many rules has.
    fn offsets(self, rules: usize) -> usize {
        match self {
            One => 0,
            Two => rules,
        }
    }

    /// The bytes of its index.
    pub fn index(self, rules: usize) -> usize {
        4 * self.offsets(rules)
    }

    /// Where its rules start.
    pub fn rules_start(self, rules: usize) -> usize {
        HEADER + self.index(rules)
    }
}

/// The version is part of a deck's value: "there and back gives the same bytes".
#[derive(Clone, Debug, PartialEq, Eq)]
pub struct Deck {
    pub version: Version,
    pub rules: Vec<Rule>,
    pub places: Vec<RulePlace>,
}

pub const MARK: [u8; 3] = *b"RDK";
/// The bytes of mark, version and number of rules.
pub const HEADER: usize = 7;
pub const BETWEEN: [u8; 2] = [0x01, 0x80];
pub const HEAD: [&[u8]; 4] = [&[0xFF, 0xFF], &[0, 0], &[0x0C, 0], b"CRuleElement"];
pub const MOST_BYTES: usize = 60_000;
pub const MOST_RULES: usize = 256;
pub const MOST_ELEMENTS: usize = 64;
pub const MOST_WORDS: usize = 64;

fn read_head(r: &mut Reader, first: bool) -> Answer<()> {
    if !first {
        return r.set(&BETWEEN, 8);
    }
    HEAD.iter().try_for_each(|field| r.set(field, 8))
}

fn read_rule(r: &mut Reader, edition: u64, first: bool) -> Answer<(Rule, RulePlace)> {
    let start = r.at;
    let signature = r.word()?;
    let (name, name_place) = r.string()?;
    let enabled = r.at;
    let on = r.flag()?;
    let unknown = [r.word()?, r.word()?, r.word()?, r.word()?];
    let size_place = r.here();
    let size = r.number(4)?;
    let body = r.here();
    let count = r.count(2, 1, MOST_ELEMENTS as u64)?;
    read_head(r, first)?;
    let (mut elements, mut places) = (Vec::with_capacity(count as usize), Vec::with_capacity(count as usize));
    for i in 0..count {
        if i > 0 {
            r.set(&BETWEEN, 8)?;
        }
        let (element, place) = read_element(r, edition)?;
        elements.push(element);
        places.push(place);
    }
    if size != r.here() - body {
        return refuse(12, size_place);
    }
    let rule = Rule { fixed: Fixed { signature, on, unknown }, name, elements };
    Ok((rule, RulePlace { start, end: r.at, name: name_place, enabled, elements: places }))
}

/// One of the versions that are taken; "5: version wrong", at 3.
fn read_version(r: &mut Reader, taken: &[Version]) -> Answer<Version> {
    let start = r.here();
    let number = r.number(2)?;
    match taken.iter().find(|&&version| version as u64 == number) {
        Some(version) => Ok(*version),
        None => refuse(5, start),
    }
}

/// An offset, and where it stands.
struct Offset {
    at: u64,
    says: u64,
}

fn read_offset(r: &mut Reader) -> Answer<Offset> {
    Ok(Offset { at: r.here(), says: r.number(4)? })
}

impl Offset {
    /// "29 for an offset that is not its rule's start, at that offset, judged when the rule is reached".
    fn judge(&self, start: u64) -> Answer<()> {
        if self.says == start {
            Ok(())
        } else {
            refuse(29, self.at)
        }
    }
}

/// A read of a deck of either version.
pub fn read(edition: u64, bytes: &[u8]) -> Answer<Deck> {
    read_taken(&Version::ALL, edition, bytes)
}

/// A read of a deck of one of these versions: 1, then 2, then left to right, 13 after the last rule.
pub fn read_taken(taken: &[Version], edition: u64, bytes: &[u8]) -> Answer<Deck> {
    judge_edition(edition)?;
    if bytes.len() > MOST_BYTES {
        return refuse(2, 60_000);
    }
    let mut r = Reader::new(bytes);
    r.set(&MARK, 4)?;
    let version = read_version(&mut r, taken)?;
    let count = r.count(2, 0, MOST_RULES as u64)? as usize;
    let offsets = (0..version.offsets(count)).map(|_| read_offset(&mut r)).collect::<Answer<Vec<Offset>>>()?;
    let mut deck = Deck { version, rules: Vec::new(), places: Vec::new() };
    for k in 0..count {
        offsets.get(k).map_or(Ok(()), |offset| offset.judge(r.here()))?;
        let (rule, place) = read_rule(&mut r, edition, k == 0)?;
        deck.rules.push(rule);
        deck.places.push(place);
    }
    if r.at < bytes.len() {
        return refuse(13, r.here());
    }
    Ok(deck)
}

/// The deck check: the read's refusals without 14; done, the number of rules.
pub fn check(edition: u64, bytes: &[u8]) -> Answer<u64> {
    Ok(read(edition, bytes)?.rules.len() as u64)
}

fn write_rule(out: &mut Vec<u8>, rule: &Rule, first: bool) {
    let mut body = (rule.elements.len() as u16).to_le_bytes().to_vec();
    body.extend(if first { HEAD.concat() } else { BETWEEN.to_vec() });
    for (i, element) in rule.elements.iter().enumerate() {
        if i > 0 {
            body.extend_from_slice(&BETWEEN);
        }
        write_word(&mut body, element.identifier);
        write_data(&mut body, &element.data);
    }
    write_word(out, rule.fixed.signature);
    write_string(out, &rule.name);
    write_word(out, u32::from(rule.fixed.on));
    rule.fixed.unknown.iter().for_each(|&n| write_word(out, n));
    write_word(out, body.len() as u32);
    out.extend(body);
}

/// A deck written from its version and its rules.
pub fn write(version: Version, rules: &[Rule]) -> Vec<u8> {
    let mut out = MARK.to_vec();
    out.extend_from_slice(&(version as u16).to_le_bytes());
    out.extend_from_slice(&(rules.len() as u16).to_le_bytes());
    let mut body = Vec::new();
    let start = version.rules_start(rules.len());
    for (k, rule) in rules.iter().enumerate() {
        if version == Two {
            write_word(&mut out, (start + body.len()) as u32);
        }
        write_rule(&mut body, rule, k == 0);
    }
    out.extend(body);
    out
}
