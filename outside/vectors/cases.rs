//! The cases of what is read: identifiers, dates, checks, tables and views.
use crate::baseline::deck::{check, read, write, One};
use crate::baseline::kind::identifiers;
use crate::baseline::random::{self, Random};
use crate::baseline::results;
use crate::baseline::{coded, DESK, STUDIO};
use crate::call::*;
use crate::file::File;
use crate::parts::*;

pub fn all_identifiers() -> File {
    let mut file = File::new("identifiers");
    for identifier in identifiers() {
        let i = u64::from(identifier);
        for edition in EDITIONS {
            kind(&mut file, edition, i);
        }
        for near in [i & 0xFF, i ^ 0x100, i + 0x1_0000, i + 0x100_0000, i + 0x8000_0000, i + 1] {
            kind(&mut file, STUDIO, near);
        }
        kind(&mut file, DESK, i & 0xFF);
    }
    for wrong in [0, 0xF0, 0x190, 0x2F5, 0x0100_00F5, 0xFFFF_FFFF] {
        for edition in [0, 1, 2, 3, 257, (1 << 32) + 2, MOST] {
            kind(&mut file, edition, wrong);
        }
    }
    for edition in [0, 3, 256, 258, MOST] {
        kind(&mut file, edition, 0x64);
    }
    for identifier in [0x64, 0xF5, 0x12D, 0x21B, 0x211, 0xE0, 0x20D, 0xF0] {
        for edition in [0, 1, 2] {
            other_rooms(&mut file, KIND, &[edition, identifier], results::KIND, &[]);
        }
    }
    file
}

/// A date, and the numbers just below and above its bits.
fn moments_around(file: &mut File, date: f64) {
    let bits = date.to_bits();
    for near in [bits.wrapping_sub(1), bits, bits.wrapping_add(1)] {
        moment(file, near);
    }
}

pub fn all_dates() -> File {
    let mut file = File::new("dates");
    let document = [2.0, 2.5, -1.25, -0.25, -657_434.0, 2_958_465.5, -657_435.0, 2_958_466.0];
    let days = [0.0, -0.0, 1.0, -1.0, 59.0, 60.0, 61.0, 62.0, 366.0, 367.0, 36_525.0, 36_526.0, 36_585.0, 36_586.0];
    let far = [73_110.0, 73_111.0, 693_596.0, -109_207.0, -109_206.0, -621_049.0, -657_434.5, -657_434.999_99];
    for date in document.iter().chain(&days).chain(&far) {
        moments_around(&mut file, *date);
    }
    for second in [1.0, 2.0, 59.0, 60.0, 3_599.0, 3_600.0, 43_199.0, 43_200.0, 86_398.0, 86_399.0] {
        for day in [0.0, 1.0, 40_000.0, 2_958_465.0] {
            let date: f64 = day + second / 86_400.0;
            moments_around(&mut file, date);
            moments_around(&mut file, -date.min(657_434.9));
        }
    }
    let exponent = 0x7FF0_0000_0000_0000;
    let sign = 1 << 63;
    for bits in [0, 1, 0x000F_FFFF_FFFF_FFFF, 0x0010_0000_0000_0000, exponent - 1, exponent, exponent + 1, sign - 1] {
        moment(&mut file, bits);
        moment(&mut file, bits + sign);
    }
    let mut r = Random::new(1);
    for _ in 0..200 {
        moment(&mut file, random::good_date(&mut r));
    }
    for _ in 0..60 {
        moment(&mut file, random::any_date(&mut r));
    }
    for date in document.iter().chain(&[f64::INFINITY, f64::NAN]) {
        other_rooms(&mut file, MOMENT, &[date.to_bits()], results::MOMENT, &[]);
    }
    file
}

pub fn all_checks() -> File {
    let mut file = File::new("checks");
    for rules in sample_decks() {
        let deck = write(One, &rules);
        file.base(&deck);
        for edition in [0, 1, 2, 3, 257, (1 << 32) + 1, MOST] {
            file.call(CHECK, &[edition], &[&deck]);
        }
        for edition in EDITIONS {
            for bytes in each_answer(faulty_decks(&deck), |b| coded(check(edition, b))) {
                file.call(CHECK, &[edition], &[&bytes]);
            }
        }
    }
    file
}

/// Decks whose tables and views are asked for.
fn table_decks() -> Vec<Vec<u8>> {
    let mut decks: Vec<Vec<u8>> = sample_decks().iter().map(|rules| write(One, rules)).collect();
    decks.push(write(One, &[]));
    decks.push(decks[0][..69].to_vec());
    decks.push([&decks[1][..], &[0]].concat());
    decks
}

pub fn all_tables() -> File {
    let mut file = File::new("tables");
    for deck in table_decks() {
        file.base(&deck);
        let rules = read(STUDIO, &deck).map_or(Vec::new(), |d| d.places);
        let elements = rules.iter().map(|p| p.elements.len()).sum();
        for edition in [0, 1, 2] {
            reads(&mut file, edition, &deck, rules.len(), elements);
        }
    }
    for units in [0, 1, 254, 255] {
        named_rules(&mut file, units);
    }
    file
}

/// Tables that fit so many rules and elements, that are short of one number, or of one a rule, empty ones, longer ones.
pub fn reads(file: &mut File, edition: u64, deck: &[u8], rules: usize, elements: usize) {
    let (r, e) = table_rooms(rules, elements);
    let (r1, e1) = (r.saturating_sub(1), e.saturating_sub(1));
    let mut rooms = vec![(r, e), (r1, e), (r - rules as u64, e), (r, e1), (r1, e1), (0, 0), (r + 3, e + 7)];
    rooms.dedup();
    for (r, e) in rooms {
        file.call(READ, &[edition, r, e], &[deck]);
    }
}

/// A rule with a name of so many units, alone and behind another.
fn named_rules(file: &mut File, units: usize) {
    let named = rule(units, vec![element(0xC8)]);
    for rules in [vec![named.clone()], vec![rule(3, vec![element(0x64)]), named]] {
        let deck = write(One, &rules);
        file.base(&deck);
        reads(file, DESK, &deck, rules.len(), rules.len());
    }
}

pub fn all_views() -> File {
    let mut file = File::new("views");
    for deck in table_decks() {
        file.base(&deck);
        views(&mut file, &deck);
    }
    file
}

pub fn views(file: &mut File, deck: &[u8]) {
    let rules = read(STUDIO, deck).map_or(Vec::new(), |d| d.places);
    let count = rules.len() as u64;
    for edition in [1, 2, 3] {
        for k in (0..=count).chain([256, 1 << 32, MOST]) {
            name(file, edition, deck, k);
            file.call(FIELDS, &[edition, k, results::FIELDS as u64], &[deck]);
        }
        for k in [0, MOST] {
            other_rooms(file, NAME_PART, &[edition, k], results::PART, &[deck]);
            other_rooms(file, FIELDS, &[edition, k], results::FIELDS, &[deck]);
        }
    }
    for (k, place) in rules.iter().enumerate() {
        for (e, element) in place.elements.iter().enumerate() {
            let n = element.words.len() as u64;
            for w in (0..=n).chain(if e == 0 { vec![1 << 32, MOST] } else { vec![] }) {
                word(file, STUDIO, deck, [k as u64, e as u64, w]);
            }
        }
        for e in [place.elements.len() as u64, 64, 1 << 32, MOST] {
            word(file, STUDIO, deck, [k as u64, e, 0]);
        }
        other_rooms(file, WORD_PART, &[STUDIO, k as u64, 0, 0], results::PART, &[deck]);
    }
    for edition in [0, 1, 2] {
        word(file, edition, deck, [count, 0, 0]);
        word(file, edition, deck, [MOST; 3]);
    }
}
