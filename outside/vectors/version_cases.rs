//! The cases of version 2: decks shown and edited, offsets that are no rule's start, the order of their faults.
use crate::baseline::deck::{check, read, write, One, Rule, Two, HEADER};
use crate::baseline::edit::{self, Edit};
use crate::baseline::element::{data_bytes, Data};
use crate::baseline::random::{rules_of_size, small_rule};
use crate::baseline::{coded, DESK, STUDIO};
use crate::call::*;
use crate::cases::{reads, views};
use crate::edit_cases::{one_of_each, plain_edits};
use crate::file::File;
use crate::parts::*;

/// Decks of version 2, and edits of either version with second decks of the other.
pub fn all_versions() -> File {
    let mut file = File::new("versions");
    sound_decks(&mut file);
    edits(&mut file);
    inserts(&mut file);
    empty_decks(&mut file);
    file
}

/// The index at the limits: buffers that just fit, 60,000 bytes, the most rules.
pub fn all_indexes() -> File {
    let mut file = File::new("indexes");
    just_fitting(&mut file);
    long_decks(&mut file);
    many_rules(&mut file);
    file
}

/// Offsets that say another place, cut ones, other versions.
pub fn all_offsets() -> File {
    let mut file = File::new("offsets");
    wrong_versions(&mut file);
    wrong_offsets(&mut file);
    two_faults(&mut file);
    given_faults(&mut file);
    orders(&mut file);
    file
}

fn sound_decks(file: &mut File) {
    for rules in sample_decks() {
        let deck = write(Two, &rules);
        file.base(&deck);
        for edition in [0, 1, 2, 3] {
            file.call(CHECK, &[edition], &[&deck]);
        }
        let elements = rules.iter().map(|rule| rule.elements.len()).sum();
        reads(file, STUDIO, &deck, rules.len(), elements);
        for k in [0, 1, rules.len() as u64 - 1, rules.len() as u64, MOST] {
            name(file, STUDIO, &deck, k);
            file.call(FIELDS, &[STUDIO, k, 6], &[&deck]);
            word(file, STUDIO, &deck, [k, 0, 1]);
        }
    }
    let deck = write(Two, &[long(rule(1, vec![words(&[2, 0])])), rule(0, vec![element(0x64), words(&[1])])]);
    file.base(&deck);
    views(file, &deck);
}

fn edits(file: &mut File) {
    let deck = write(Two, &three_rules(STUDIO));
    file.base(&buffered(&deck, 700));
    for what in plain_edits(STUDIO, One) {
        edit(file, STUDIO, &deck, 700, &what);
    }
}

/// Rules of a second deck, in front, inside, at the end and beyond it; one of the two has version 2, or both.
fn inserts(file: &mut File) {
    for edition in EDITIONS {
        for (version, second) in [(One, Two), (Two, One), (Two, Two)] {
            let deck = write(version, &three_rules(edition));
            file.base(&buffered(&deck, 200));
            for k in [0, 1, 3, 4] {
                for j in 0..=2 {
                    let second = write(second, &two_rules(edition));
                    edit(file, edition, &deck, 200, &Edit::Insert { k, second, j });
                }
            }
            edit(file, edition, &deck, 200, &Edit::Insert { k: 1, second: deck.clone(), j: 2 });
        }
    }
}

fn empty_decks(file: &mut File) {
    let empty = write(Two, &[]);
    for more in [0, 90] {
        for edition in EDITIONS {
            let mut buffer = empty.clone();
            buffer.extend(vec![0; more]);
            file.call(CHECK, &[edition], &[&buffer]);
            reads(file, edition, &empty, 0, 0);
            name(file, edition, &empty, 0);
            for what in one_of_each(0, &write(Two, &two_rules(edition)), 1, &units(3), 0xC8) {
                edit(file, edition, &empty, more, &what);
            }
            let second = empty.clone();
            edit(file, edition, &write(One, &three_rules(edition)), more, &Edit::Insert { k: 0, second, j: 0 });
        }
    }
}

/// Edits that make a deck longer or shorter.
fn changing_edits(edition: u64) -> Vec<Edit> {
    let second = write(Two, &two_rules(edition));
    vec![
        simple_rule(units(2)),
        Edit::AddElement { identifier: 0xCA, data: data_bytes(&Data::Simple) },
        Edit::AddWord { word: units(4) },
        Edit::Rename { k: 0, name: units(9) },
        Edit::Rename { k: 1, name: units(255) },
        Edit::Rename { k: 2, name: units(0) },
        Edit::Insert { k: 0, second: second.clone(), j: 1 },
        Edit::Insert { k: 2, second, j: 0 },
        Edit::Remove { k: 0 },
        Edit::Remove { k: 2 },
        Edit::Switch { k: 1, on: true },
    ]
}

/// How long the deck is that an edit makes, if it makes one.
fn length_after(edition: u64, deck: &[u8], what: &Edit) -> Option<usize> {
    let mut buffer = [deck, &[0; 2000]].concat();
    edit::edit(edition, &mut buffer, deck.len() as u64, what).ok().map(|length| length as usize)
}

/// Buffers that end exactly where the result does, or one byte before, or an offset's 4; and one that is longer.
fn just_fitting(file: &mut File) {
    for edition in EDITIONS {
        let deck = write(Two, &three_rules(edition));
        file.base(&deck);
        for what in changing_edits(edition) {
            let grows = length_after(edition, &deck, &what).map_or(0, |n| n.saturating_sub(deck.len()));
            for more in [grows, grows.max(1) - 1, grows.max(4) - 4, grows + 1] {
                edit(file, edition, &deck, more, &what);
            }
        }
    }
}

/// The deck with other bytes at a place.
fn with(deck: &[u8], at: usize, bytes: &[u8]) -> Vec<u8> {
    [&deck[..at], bytes, &deck[at + bytes.len()..]].concat()
}

fn wrong_versions(file: &mut File) {
    for version in [One, Two] {
        let deck = write(version, &three_rules(DESK));
        file.base(&deck);
        for number in [0, 1, 2, 3, 0x0100, 0x0101, 0x0102, 0x0200, 0x0201, 0x0202, 0x8001, 0x8002, 0xFFFF_u16] {
            let other = with(&deck, 3, &number.to_le_bytes());
            for bytes in [&other[..], &other[..5], &with(&other, 5, &[1, 1]), &with(&other, 0, &[0])] {
                file.call(CHECK, &[DESK], &[bytes]);
            }
            edit(file, DESK, &other, 60, &simple_rule(units(1)));
            edit(file, DESK, &deck, 60, &Edit::Insert { k: 0, second: other, j: 0 });
        }
    }
}

/// The starts of a sound deck's rules.
fn starts(deck: &[u8]) -> Vec<u32> {
    read(STUDIO, deck).map_or(Vec::new(), |deck| deck.places.iter().map(|place| place.start as u32).collect())
}

/// Where offset k stands.
fn offset(k: usize) -> usize {
    HEADER + 4 * k
}

/// What an offset that should say `start` may say in its stead.
fn other_places(start: u32, deck: &[u8]) -> Vec<u32> {
    let near = [start - 4, start - 1, start + 1, start + 4, start ^ 1 << 8, start ^ 1 << 16, start ^ 1 << 24];
    let far = [0, 7, start - 7, start - deck[HEADER] as u32, deck.len() as u32, 60_000, u32::MAX, start.swap_bytes()];
    near.iter().chain(&far).copied().chain(starts(deck)).filter(|&place| place != start).collect()
}

/// Each offset with other places, alone, and with an edit on the deck or with the deck as a second one.
fn wrong_offsets(file: &mut File) {
    let deck = write(Two, &three_rules(STUDIO));
    file.base(&buffered(&deck, 60));
    for (k, &start) in starts(&deck).iter().enumerate() {
        for place in other_places(start, &deck) {
            file.call(CHECK, &[STUDIO], &[&with(&deck, offset(k), &place.to_le_bytes())]);
        }
        let wrong = with(&deck, offset(k), &(start + 1).to_le_bytes());
        reads(file, STUDIO, &wrong, 3, 5);
        for j in [0, 2, 3] {
            name(file, STUDIO, &wrong, j);
            file.call(FIELDS, &[STUDIO, j, 6], &[&wrong]);
            word(file, STUDIO, &wrong, [j, 1, 0]);
        }
        for what in changing_edits(STUDIO) {
            edit(file, STUDIO, &wrong, 60, &what);
        }
        for (version, j) in [(One, 0), (Two, 2), (Two, 9)] {
            let own = write(version, &two_rules(STUDIO));
            edit(file, STUDIO, &own, 300, &Edit::Insert { k: 1, second: wrong.clone(), j });
        }
    }
}

/// A wrong offset, or none, and a second fault at each place: each answer once, in each edition.
fn two_faults(file: &mut File) {
    let deck = write(Two, &three_rules(STUDIO));
    file.base(&deck);
    let wrong = (0..3).map(|k| with(&deck, offset(k), &[0xEE]));
    for bytes in std::iter::once(deck.clone()).chain(wrong) {
        for edition in EDITIONS {
            for faulty in each_answer(faulty_decks(&bytes), |b| coded(check(edition, b))) {
                file.call(CHECK, &[edition], &[&faulty]);
            }
        }
    }
    for n in offset(0)..=offset(3) {
        file.call(CHECK, &[STUDIO], &[&with(&deck, offset(0), &[0; 12])[..n]]);
    }
}

/// Faults of an edited deck of version 2, and of a second one: each answer once.
fn given_faults(file: &mut File) {
    let deck = write(Two, &two_rules(STUDIO));
    let one = write(One, &two_rules(STUDIO));
    file.base(&deck);
    for (i, bytes) in each_answer(faulty_decks(&deck), |b| coded(check(STUDIO, b))).into_iter().enumerate() {
        let edits = changing_edits(STUDIO);
        edit(file, STUDIO, &bytes, 30, &edits[i % edits.len()]);
        edit(file, STUDIO, [&one, &deck][i % 2], 150, &Edit::Insert { k: 1, second: bytes, j: 1 });
    }
}

/// A wrong offset of the deck, or of the second one, and what else a call may be refused for.
fn orders(file: &mut File) {
    let deck = write(Two, &three_rules(STUDIO));
    let second = write(Two, &two_rules(STUDIO));
    let bad = |deck: &[u8]| with(deck, offset(1), &[0]);
    file.base(&buffered(&deck, 100));
    for (first, second, k, j) in [
        (deck.clone(), bad(&second), 9, 9),
        (deck.clone(), second.clone(), 9, 9),
        (deck.clone(), second.clone(), 1, 9),
        (bad(&deck), bad(&second), 9, 9),
        (bad(&deck), second, 0, 0),
    ] {
        for what in one_of_each(k, &second, j, &[1, 2, 3], 0xF0) {
            let length = first.len() as u64;
            for (edition, stated, more) in [(2, length, 100), (2, length + 101, 100), (3, length, 0)] {
                file.add(of_edit(edition, &buffered(&first, more), stated, &what));
            }
        }
    }
}

/// Decks of version 2 of about 60,000 bytes, and results of that length.
fn long_decks(file: &mut File) {
    file.base(&write(Two, &rules_of_size(Two, 60_000)));
    for size in [59_999, 60_000, 60_001] {
        let deck = write(Two, &rules_of_size(Two, size));
        file.call(CHECK, &[DESK], &[&deck]);
        name(file, DESK, &deck, 119);
        edit(file, DESK, &deck, 0, &Edit::Remove { k: 1 });
        edit(file, DESK, &write(One, &two_rules(DESK)), 600, &Edit::Insert { k: 1, second: deck, j: 119 });
    }
    let deck = write(Two, &rules_of_size(Two, 59_900));
    file.base(&deck);
    for n in [24, 25, 26, 27, 28] {
        for more in [99, 100, 110] {
            edit(file, DESK, &deck, more, &simple_rule(units(n)));
        }
        let second = write(One, &[small_rule(0xC8, Vec::new()), small_rule(0xCA, vec![9; n])]);
        edit(file, DESK, &deck, 110, &Edit::Insert { k: 5, second, j: 1 });
    }
    let last = starts(&deck).len() as u64 - 1;
    for n in [50, 51, 52] {
        edit(file, DESK, &deck, 110, &Edit::Rename { k: last, name: units(n) });
    }
}

/// The most rules: 1,024 bytes of index.
fn many_rules(file: &mut File) {
    let (r, e) = table_rooms(256, 256);
    for n in [255, 256] {
        let rules: Vec<Rule> = vec![small_rule(0xC8, Vec::new()); n];
        let deck = write(Two, &rules);
        file.base(&deck);
        file.call(CHECK, &[DESK], &[&deck]);
        name(file, DESK, &deck, 254);
        name(file, DESK, &deck, 255);
        file.call(CHECK, &[DESK], &[&with(&deck, offset(n - 1), &[0])]);
        file.call(CHECK, &[DESK], &[&deck[..offset(n) - 1]]);
        file.call(READ, &[DESK, r - 1, e], &[&deck]);
        for more in [48, 49] {
            edit(file, DESK, &deck, more, &simple_rule(Vec::new()));
            edit(file, DESK, &deck, more, &Edit::Insert { k: 0, second: write(One, &rules), j: 254 });
        }
        edit(file, DESK, &deck, 9, &Edit::Remove { k: 0 });
        edit(file, DESK, &deck, 9, &Edit::Remove { k: 254 });
    }
}
