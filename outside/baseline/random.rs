//! Random decks by a seed of one's own: xorshift, no clock and no machine in it.
use super::deck::{write, Fixed, Rule, Two, Version, HEADER, MOST_BYTES};
use super::element::{data_bytes, Data, Element, Span};
use super::kind::{identifiers_of, row, Kind};
use super::text::Text;
use super::{DESK, STUDIO};

pub struct Random(u64);

impl Random {
    pub fn new(seed: u64) -> Random {
        let mut random = Random(seed ^ 0x9E37_79B9_7F4A_7C15);
        if random.0 == 0 {
            random.0 = 1;
        }
        for _ in 0..8 {
            random.next();
        }
        random
    }

    pub fn next(&mut self) -> u64 {
        self.0 ^= self.0 << 13;
        self.0 ^= self.0 >> 7;
        self.0 ^= self.0 << 17;
        self.0.wrapping_mul(0x2545_F491_4F6C_DD1D)
    }

    /// 0 to n - 1.
    pub fn below(&mut self, n: usize) -> usize {
        ((self.next() >> 16) % n as u64) as usize
    }

    /// Once in n times.
    pub fn once_in(&mut self, n: usize) -> bool {
        self.below(n) == 0
    }

    pub fn pick<T: Copy>(&mut self, list: &[T]) -> T {
        list[self.below(list.len())]
    }

    pub fn bytes(&mut self, n: usize) -> Vec<u8> {
        (0..n).map(|_| (self.next() >> 40) as u8).collect()
    }
}

const DATE_BOUNDS: [f64; 14] =
    [0.0, -0.0, 2.0, 2.5, -1.25, -0.25, -657_434.0, -657_434.999, 2_958_465.5, 2_958_465.999, 59.0, 60.0, 61.0, 1e-300];

/// Bits that are a date.
pub fn good_date(r: &mut Random) -> u64 {
    match r.below(4) {
        0 => r.pick(&DATE_BOUNDS).to_bits(),
        1 => (r.below(3_615_900) as f64 - 657_434.0).to_bits(),
        _ => ((r.next() >> 11) as f64 / (1u64 << 53) as f64 * 3_615_900.0 - 657_434.5).to_bits(),
    }
}

/// Bits that may be none: bounds, infinities, not-a-numbers, any.
pub fn any_date(r: &mut Random) -> u64 {
    let refused = [-657_435.0, 2_958_466.0, f64::INFINITY, f64::NEG_INFINITY, f64::NAN, 1e300, -657_435.5];
    match r.below(4) {
        0 => r.pick(&refused).to_bits(),
        1 => r.pick(&refused).to_bits().wrapping_add(r.below(3) as u64).wrapping_sub(1),
        2 => r.next(),
        _ => good_date(r),
    }
}

pub fn units(r: &mut Random) -> Vec<u16> {
    let n = match r.below(40) {
        0 => 254,
        1 => 255,
        2 => r.below(256),
        _ => r.below(5),
    };
    (0..n).map(|_| (r.next() >> 33) as u16).collect()
}

/// A String, in either form where it may have both.
pub fn text(r: &mut Random) -> Text {
    let units = units(r);
    if r.once_in(2) {
        Text::long(units)
    } else {
        Text::shortest(units)
    }
}

/// More units than a String may have.
fn too_long(r: &mut Random) -> Text {
    Text::long(vec![7; r.pick(&[256, 257, 511, 512])])
}

fn words(r: &mut Random) -> Vec<Text> {
    let n = match r.below(30) {
        0 => 64,
        1 => 63,
        _ => r.below(4),
    };
    (0..n).map(|_| text(r)).collect()
}

pub fn data(r: &mut Random, kind: Kind) -> Data {
    match kind {
        Kind::Marker => Data::Marker,
        Kind::WordList => Data::Words(words(r)),
        Kind::Size => Data::Size { minimum: r.next() as u32, maximum: r.next() as u32 },
        Kind::Dates => Data::Dates(Span {
            after_set: r.once_in(2),
            after: good_date(r),
            before_set: r.once_in(2),
            before: good_date(r),
        }),
        _ => Data::Simple,
    }
}

pub fn element(r: &mut Random, edition: u64) -> Element {
    let identifier = r.pick(&identifiers_of(edition));
    let kind = row(identifier).unwrap_or(Kind::Marker);
    Element { identifier, data: data(r, kind) }
}

pub fn fixed(r: &mut Random) -> Fixed {
    let unknown = [r.next() as u32, r.next() as u32, 0, r.next() as u32];
    Fixed { signature: r.next() as u32, on: r.once_in(2), unknown }
}

pub fn rule(r: &mut Random, edition: u64) -> Rule {
    let n = match r.below(30) {
        0 => 64,
        1 => 63,
        _ => 1 + r.below(4),
    };
    let elements = (0..n).map(|_| element(r, edition)).collect();
    Rule { fixed: fixed(r), name: text(r), elements }
}

/// A list of rules whose deck has at most 60,000 bytes, in either version.
pub fn rules(r: &mut Random, edition: u64) -> Vec<Rule> {
    let n = r.below(5);
    let mut rules: Vec<Rule> = (0..n).map(|_| rule(r, edition)).collect();
    while write(Two, &rules).len() > MOST_BYTES {
        rules.pop();
    }
    rules
}

pub fn version(r: &mut Random) -> Version {
    r.pick(&Version::ALL)
}

/// A rule with one simple element, its name in the shortest form.
pub fn small_rule(identifier: u32, units: Vec<u16>) -> Rule {
    let fixed = Fixed { signature: 0, on: true, unknown: [0; 4] };
    Rule { fixed, name: Text::shortest(units), elements: vec![Element { identifier, data: Data::Simple }] }
}

/// Rules, of simple elements alone, whose deck in that version has exactly that many bytes: 14,000 to 61,000.
pub fn rules_of_size(version: Version, bytes: usize) -> Vec<Rule> {
    // a first rule of 61 bytes, others of 45, and two for each unit
    let unnamed = |others| version.rules_start(1 + others) + 61 + 45 * others;
    let mut others = bytes / 500;
    if unnamed(others) % 2 != bytes % 2 {
        others += 1;
    }
    let mut units_left = (bytes - unnamed(others)) / 2;
    let mut rules = Vec::new();
    for _ in 0..=others {
        let n = units_left.min(254);
        units_left -= n;
        rules.push(small_rule(0x12D, (0..n as u16).collect()));
    }
    rules
}

/// The length bytes of a long form, with units or without.
fn long_length(r: &mut Random) -> [u8; 3] {
    [0xFF, r.pick(&[0, 1, 2, 0xFE, 0xFF]), r.pick(&[0, 0, 0, 1, 0xFF])]
}

/// One of the Strings becomes too long.
fn lengthen(r: &mut Random, rules: &mut [Rule]) {
    let mut strings: Vec<&mut Text> = rules.iter_mut().flat_map(|rule| rule.strings()).collect();
    let i = r.below(strings.len() + 1);
    if let Some(text) = strings.get_mut(i) {
        **text = too_long(r);
    }
}

/// How many offsets a deck has by its first bytes.
fn offsets(bytes: &[u8]) -> usize {
    match bytes {
        [_, _, _, 2, 0, low, high, ..] => usize::from(*low) + 256 * usize::from(*high),
        _ => 0,
    }
}

/// One of the offsets, if there are any, says another place: near its own, another rule's, or none.
pub fn misplace(r: &mut Random, bytes: &mut [u8]) {
    let count = offsets(bytes);
    let (k, other) = (r.below(count.max(1)), r.below(count.max(1)));
    let number = |k: usize| bytes.get(HEADER + 4 * k..HEADER + 4 * k + 4)?.try_into().ok().map(u32::from_le_bytes);
    if let (true, Some(own), Some(another)) = (count > 0, number(k), number(other)) {
        let near = own.wrapping_add(r.below(9) as u32).wrapping_sub(4);
        let says = r.pick(&[near, near, another, 0, 7, own ^ 1 << 16, bytes.len() as u32, u32::MAX]);
        bytes[HEADER + 4 * k..HEADER + 4 * k + 4].copy_from_slice(&says.to_le_bytes());
    }
}

/// The first name's length becomes that of a long form.
fn lengthen_first(r: &mut Random, bytes: &mut [u8]) {
    let at = HEADER + 4 * offsets(bytes) + 4;
    if let Some(length) = bytes.get_mut(at..at + 3) {
        length.copy_from_slice(&long_length(r));
    }
}

/// The bytes with one or more faults in them.
pub fn damage(r: &mut Random, bytes: &mut Vec<u8>) {
    for _ in 0..1 + r.below(2) {
        let at = r.below(bytes.len() + 1);
        match r.below(8) {
            0 => bytes.truncate(at),
            1 => bytes.extend(vec![0; 1 + at % 3]),
            2 => bytes.insert(at, r.next() as u8),
            3 if at < bytes.len() => drop(bytes.remove(at)),
            4 if at < bytes.len() => bytes[at] = r.pick(&[0, 1, 2, 0x7F, 0x80, 0xF5, 0xFE, 0xFF]),
            5 => lengthen_first(r, bytes),
            6 => misplace(r, bytes),
            _ if at < bytes.len() => bytes[at] ^= 1 << r.below(8),
            _ => {}
        }
    }
}

/// A deck of either version that mostly is sound in that edition.
pub fn deck(r: &mut Random, edition: u64) -> Vec<u8> {
    let edition = if r.once_in(12) { DESK + STUDIO - edition } else { edition };
    let mut rules = rules(r, edition);
    if r.once_in(40) {
        lengthen(r, &mut rules);
    }
    let mut bytes = write(version(r), &rules);
    if r.once_in(4) {
        damage(r, &mut bytes);
    }
    if r.once_in(200) {
        bytes.resize(MOST_BYTES + r.below(3), 0);
    }
    bytes
}

/// Data of that kind, sound or not.
pub fn given_data(r: &mut Random, kind: Kind) -> Vec<u8> {
    let mut data = data(r, kind);
    if let (Data::Words(words), true) = (&mut data, r.once_in(12)) {
        words.insert(0, too_long(r));
    }
    let mut bytes = data_bytes(&data);
    match r.below(12) {
        0 => damage(r, &mut bytes),
        1 => bytes.push(0),
        2 => bytes.truncate(bytes.len() - 1),
        3 if kind == Kind::Dates => {
            let at = r.pick(&[16, 32]);
            bytes[at..at + 8].copy_from_slice(&any_date(r).to_le_bytes());
        }
        4 if kind == Kind::WordList => bytes[..4].copy_from_slice(&(60 + r.below(10) as u32).to_le_bytes()),
        5 if kind == Kind::WordList && bytes.len() > 10 => bytes[8..11].copy_from_slice(&long_length(r)), // a first word's
        _ => {}
    }
    bytes
}

/// An identifier, mostly one of the edition's.
pub fn identifier(r: &mut Random, edition: u64) -> u32 {
    match r.below(12) {
        0 => r.pick(&identifiers_of(STUDIO)),
        1 => r.pick(&[0, 0xF0, 0x190, 0x2F5, 0x0100_00F5, 0x1_00F5, 0xFFFF_FFFF, 0x8000_0064, 0x165]),
        2 => r.pick(&identifiers_of(STUDIO)) ^ (1 << r.below(32)),
        _ => r.pick(&identifiers_of(edition)),
    }
}
