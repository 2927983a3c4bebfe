//! The deck check: one pass over the bytes.
use super::{Answer, Refused};

#[derive(Clone, Copy, PartialEq)]
pub enum Kind {
    None,
    Marker,
    Simple,
    Words,
    Size,
    Dates,
}

const DESK: [u32; 17] =
    [0x64, 0xC8, 0xC9, 0xCA, 0xDE, 0xE2, 0xE3, 0xF5, 0x12D, 0x132, 0x13A, 0x13B, 0x142, 0x14A, 0x14C, 0x14F, 0x152];
const EXCEPTIONS: [u32; 10] = [0x1F4, 0x1F5, 0x1F6, 0x208, 0x20A, 0x20E, 0x20F, 0x216, 0x21A, 0x21B];

/// The kinds by identifier, and whether Desk has them.
const fn table() -> [(Kind, bool); 0x220] {
    let mut t = [(Kind::None, false); 0x220];
    let mut i = 0;
    while i < DESK.len() {
        t[DESK[i] as usize] = (Kind::Simple, true);
        i += 1;
    }
    t[0x64] = (Kind::Marker, true);
    i = 0;
    while i < EXCEPTIONS.len() {
        t[EXCEPTIONS[i] as usize] = (Kind::Simple, false);
        i += 1;
    }
    t[0x211] = (Kind::Words, false);
    t[0x212] = (Kind::Words, false);
    t[0x213] = (Kind::Words, false);
    t[0x219] = (Kind::Words, false);
    t[0xE0] = (Kind::Size, false);
    t[0x20C] = (Kind::Size, false);
    t[0xE1] = (Kind::Dates, false);
    t[0x20D] = (Kind::Dates, false);
    t
}

pub static KINDS: [(Kind, bool); 0x220] = table();

#[inline]
fn field<const N: usize>(s: &[u8], at: usize) -> Answer<[u8; N]> {
    match s.get(at..at + N) {
        Some(b) => Ok(b.try_into().unwrap()),
        None => Err(Refused(3, at)),
    }
}

#[inline]
fn word(s: &[u8], at: usize) -> Answer<u32> {
    Ok(u32::from_le_bytes(field::<4>(s, at)?))
}

#[inline]
fn constant<const N: usize>(s: &[u8], at: usize, value: [u8; N], fault: u64) -> Answer<usize> {
    if field::<N>(s, at)? != value {
        return Err(Refused(fault, at));
    }
    Ok(at + N)
}

fn string(s: &[u8], at: usize) -> Answer<usize> {
    let cut = |_: Refused| Refused(3, at);
    let [short] = field::<1>(s, at).map_err(cut)?;
    let (units, first) = match short {
        255 => match u16::from_le_bytes(field::<2>(s, at + 1).map_err(cut)?) {
            n @ 0..=255 => (n as usize, at + 3),
            _ => return Err(Refused(7, at)),
        },
        n => (n as usize, at + 1),
    };
    let end = first + 2 * units;
    if end > s.len() {
        return Err(Refused(3, at));
    }
    Ok(end)
}

fn limit(s: &[u8], at: usize) -> Answer<usize> {
    if word(s, at)? > 1 {
        return Err(Refused(8, at));
    }
    constant(s, at + 4, [0; 4], 8)?;
    let date = f64::from_bits(u64::from_le_bytes(field::<8>(s, at + 8)?));
    if !(date > -657435.0 && date < 2958466.0) {
        return Err(Refused(11, at + 8));
    }
    Ok(at + 16)
}

#[inline(always)]
fn element(s: &[u8], at: usize, edition: u64) -> Answer<usize> {
    let identifier = word(s, at)? as usize;
    let (kind, desk) = *KINDS.get(identifier).unwrap_or(&(Kind::None, false));
    if kind == Kind::None {
        return Err(Refused(9, at));
    }
    if edition == 1 && !desk {
        return Err(Refused(10, at));
    }
    let at = at + 4;
    if kind == Kind::Words {
        let n = word(s, at)?;
        if n > 64 {
            return Err(Refused(6, at));
        }
        let mut at = at + 4;
        for _ in 0..n {
            at = string(s, constant(s, at, [0; 4], 8)?)?;
        }
        return Ok(at);
    }
    let at = constant(s, at, [1, 0, 0, 0], 8)?;
    let at = constant(s, at, [0; 4], 8)?;
    match kind {
        Kind::Marker => constant(s, at, [1, 0, 0, 0], 8),
        Kind::Size => {
            word(s, at)?;
            word(s, at + 4)?;
            Ok(at + 8)
        }
        Kind::Dates => limit(s, limit(s, at)?),
        _ => Ok(at),
    }
}

/// Where a rule ends, and how many elements it has.
fn rule(s: &[u8], at: usize, edition: u64, first: bool) -> Answer<(usize, usize)> {
    word(s, at)?;
    let at = string(s, at + 4)?;
    if word(s, at)? > 1 {
        return Err(Refused(8, at));
    }
    for i in 1..5 {
        word(s, at + 4 * i)?;
    }
    let size_at = at + 20;
    let size = word(s, size_at)? as usize;
    let body = size_at + 4;
    let count = u16::from_le_bytes(field::<2>(s, body)?);
    if count == 0 || count > 64 {
        return Err(Refused(6, body));
    }
    let mut at = body + 2;
    if first {
        at = constant(s, at, [0xFF, 0xFF], 8)?;
        at = constant(s, at, [0, 0], 8)?;
        at = constant(s, at, [0x0C, 0], 8)?;
        at = constant(s, at, *b"CRuleElement", 8)?;
    } else {
        at = constant(s, at, [0x01, 0x80], 8)?;
    }
    for i in 0..count {
        if i > 0 {
            at = constant(s, at, [0x01, 0x80], 8)?;
        }
        at = element(s, at, edition)?;
    }
    if at - body != size {
        return Err(Refused(12, size_at));
    }
    Ok((at, count as usize))
}

/// How many rules and elements a deck has, and the bytes of each offset of its index: none in version 1.
#[derive(Clone, Copy)]
pub struct Deck {
    pub rules: usize,
    pub elements: usize,
    pub offset: usize,
}

pub const HEADER: usize = 7;

impl Deck {
    pub fn rules_start(&self) -> usize {
        HEADER + self.offset * self.rules
    }
}

fn offset(s: &[u8], at: usize) -> Answer<usize> {
    match field::<2>(s, at)? {
        [1, 0] => Ok(0),
        [2, 0] => Ok(4),
        _ => Err(Refused(5, at)),
    }
}

#[inline(never)]
fn judge_offset(s: &[u8], k: usize, start: usize) -> Answer<()> {
    let at = HEADER + 4 * k;
    if word(s, at)? as usize != start {
        return Err(Refused(29, at));
    }
    Ok(())
}

pub fn check(edition: u64, s: &[u8]) -> Answer<Deck> {
    if edition != 1 && edition != 2 {
        return Err(Refused(1, 0));
    }
    if s.len() > 60_000 {
        return Err(Refused(2, 60_000));
    }
    let at = constant(s, 0, *b"RDK", 4)?;
    let offset = offset(s, at)?;
    let rules = u16::from_le_bytes(field::<2>(s, at + 2)?) as usize;
    if rules > 256 {
        return Err(Refused(6, at + 2));
    }
    let mut at = HEADER + offset * rules;
    if at > s.len() {
        return Err(Refused(3, s.len() - (s.len() - HEADER) % 4));
    }
    let mut elements = 0;
    for k in 0..rules {
        if offset > 0 {
            judge_offset(s, k, at)?;
        }
        let (end, n) = rule(s, at, edition, k == 0)?;
        at = end;
        elements += n;
    }
    if at < s.len() {
        return Err(Refused(13, at));
    }
    Ok(Deck { rules, elements, offset })
}
